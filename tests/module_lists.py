"""Compares the lists of modules with the files, and adds what they lack: src/lib.rt, a source with a folder of its name below src/,
specs/Lib.antt, proofs/Lib.antt and the list of each folder below proofs/.

    python3 tests/module_lists.py            prints the files that no list names and the names without a file; fails if there is one
    python3 tests/module_lists.py --write    adds a line for each such file, in its place by the alphabet, and makes a list that is missing

A module of src/ is added as `pub mod` if it has a public item, methods aside. The folder of a function, which has its proof, is in
no list, nor is the folder of a module of src/. A name without a file is taken out by hand."""
import pathlib
import re
import sys

ROOT = pathlib.Path(__file__).resolve().parent.parent
LINE = re.compile(r"(?m)^(?:pub )?mod (\w+);?$")


def lists(crate):
    """Yields each list of a crate with the files or folders that it must name."""
    src, specs, proofs = (ROOT / "crates" / crate / part for part in ("src", "specs", "proofs"))
    sources = [path for path in src.glob("*.rt") if path.stem not in ("lib", "main")]
    if (src / "lib.rt").exists():
        yield src / "lib.rt", sources
    below = [path for path in src.glob("*/*.rt")]
    for path in sources:
        yield path, [source for source in below if source.parent.name == path.stem]
    yield specs / "Lib.antt", [path for path in specs.glob("*.antt") if path.stem != "Lib"]
    if (specs / "equations").is_dir():
        yield specs / "equations.antt", list((specs / "equations").glob("*.antt"))
    folders = [path for path in proofs.glob("*") if path.is_dir()]
    inner = [proofs / path.relative_to(src).with_suffix("") for path in below]
    for folder in folders + inner:
        yield folder.with_suffix(".antt"), [path for path in folder.glob("*.antt") if path.with_suffix("") not in inner]
    modules = {path.stem for path in sources}
    yield proofs / "Lib.antt", [path for path in folders if path.name not in modules]


def added(path):
    """Returns the line for a file or folder: of a source as public if it has a public item."""
    if path.suffix == ".rt":
        public = re.search(r"(?m)^pub (?!use|mod)", path.read_text(encoding="utf-8"))
        return f"{'pub ' if public else ''}mod {path.stem};"
    return f"pub mod {path.stem}"


def head(path):
    """Returns the comment of a new list of laws of a module, the only list that a new call may need."""
    return f"-- What the proofs of several functions of src/{path.stem}.rt use.\n"


def with_line(text, line):
    """Returns a list with one more line, before the first that is later in the alphabet."""
    name = LINE.search(line)[1]
    listed = list(LINE.finditer(text))
    later = next((match for match in listed if match[1].lower() > name.lower()), None)
    used = not listed and re.search(r"(?m)^use ", text)
    if used:
        return text[: used.start()] + line + "\n\n" + text[used.start() :]
    at = later.start() if later else listed[-1].end() + 1 if listed else len(text)
    return text[:at] + line + "\n" + text[at:]


def main():
    complaints = []
    for crate in sorted(path.name for path in (ROOT / "crates").iterdir() if (path / "src").is_dir()):
        for path, wanted in lists(crate):
            old = path.read_text(encoding="utf-8") if path.exists() else ""
            named = set(LINE.findall(old))
            lacking = sorted((file for file in wanted if file.stem not in named), key=lambda file: file.stem)
            where = path.relative_to(ROOT)
            complaints += [f"{where} names {name}, which is no file" for name in sorted(named - {file.stem for file in wanted})]
            if "--write" in sys.argv and lacking:
                text = old or head(path)
                for file in lacking:
                    text = with_line(text, added(file))
                path.write_text(text, encoding="utf-8")
            else:
                complaints += [f"{where} does not name {file.stem}: run tests/module_lists.py --write" for file in lacking]
    print("\n".join(complaints + [f"{len(complaints)} complaints of lists of modules"]))
    return 1 if complaints else 0


if __name__ == "__main__":
    sys.exit(main())
