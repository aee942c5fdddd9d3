"""Prints which lines are too long, which imports are not used, which public items have no comment, and which citations lead outside.

The status is 1 if there are any.

    python3 tests/layout.py            reads this repository
    python3 tests/layout.py FOLDER     reads another copy of it

A line of a source, a proof, a script or a page has at most 140 characters. Longer ones are allowed for the row of a table and for an
attribute of a .rt file, which `rt fmt` writes on one line.

The imports are those of .antt files, and those that .rt files make for clauses by `ghost use`. An import is used if its name occurs
elsewhere in the file, outside comments; an operator such as `◌+◌` if each of its symbols does. So a name that a variable also has counts
as used. A name imported by `pub use` is passed on, and is not checked.

The repository stands alone: outside docs/changes nothing cites a paper, nor a request or a demand by its letter or number. A rule is
stated where it is used, or in docs/REFERENCE.md.

A .rt file begins with a documentation comment, `//!`, and each public item has one, `///`, in front of its attributes."""
import os
import pathlib
import re
import sys

ROOT = pathlib.Path(__file__).resolve().parent.parent
MOST = 140
SUFFIXES = (".antt", ".rt", ".rs", ".c", ".h", ".py", ".md")
# How lines begin that may be longer: a row of a table, an attribute.
MAY_BE_LONG = {".md": ("|",), ".rt": ("#[", "#![")}
BRINGS = r"([^\s{;]+?)(?:\.\{([^}]*)\})?(?: as (\S+))?"
USE = {
    ".antt": re.compile(rf"(?m)^((?:unfoldable )?pub )?use {BRINGS}$"),
    ".rt": re.compile(rf"(?m)^(pub )?ghost use {BRINGS};$"),
}
COMMENT = {".antt": r"(?m)(?:^|(?<=\s))--.*$", ".rt": r"//.*"}
# What cites a paper, also over two lines of a comment; and the files that are read for it besides SUFFIXES.
GAP = r"\s+(?:(?:--|//[/!]?|#|\*)\s*)?"
CITED = re.compile(rf"(?i:\b(?:document|paper){GAP}0\d|\b(?:papers?|calls-0\d)\b|\brequests?{GAP}\([a-z]\)|\bdemands?[_ ]?\d)")
ALSO_CITE = (".toml", ".txt", ".edit", ".svg")
MAY_CITE = ("docs/changes/", "tests/layout.py")
ITEM = re.compile(r" *pub (?:const fn|extern|fn|struct|enum|trait|const|type|static)\b")
BETWEEN = re.compile(r'[\s(){}.;,@"«»⟦⟧]+')


def files(root):
    """Yields the files that are read: by their suffix, and scripts that have none; not those that are made, in out/ and target/."""
    for folder, below, names in os.walk(root):
        below[:] = sorted(name for name in below if name not in ("out", "target") and (name[0] != "." or name == ".ci"))
        for path in (pathlib.Path(folder, name) for name in sorted(names)):
            if path.suffix in SUFFIXES + ALSO_CITE or path.suffix == "" and path.read_bytes()[:2] == b"#!":
                yield path


def long_lines(path, text):
    for number, line in enumerate(text.split("\n"), 1):
        if len(line) > MOST and not line.lstrip().startswith(MAY_BE_LONG.get(path.suffix, ())):
            yield f"line {number} has {len(line)} characters"


def brought(use):
    """Returns the names that an import brings."""
    _, path, names, other = use.groups()
    if names is None:
        return [other or path.split(".")[-1]]
    return [name.split()[-1].split(".")[-1] for name in names.split(",") if name.strip()]


def unused_imports(path, text):
    text = re.sub(COMMENT[path.suffix], "", text)
    words = set(BETWEEN.split(USE[path.suffix].sub("", text)))
    words |= {part for word in words for part in word.split("◌")}
    for use in USE[path.suffix].finditer(text):
        for name in brought(use):
            if not use[1] and name not in words and not ("◌" in name and all(part in words for part in name.split("◌") if part)):
                yield f"{name} of {use[2]} is imported and not used"


def citations(path, text):
    for cited in CITED.finditer(text):
        yield f"line {text.count(chr(10), 0, cited.start()) + 1} cites '{' '.join(cited[0].split())}'"


def undocumented(text):
    lines = text.split("\n")
    if not lines[0].startswith("//!"):
        yield "the first line is no comment //!"
    for number, line in enumerate(lines):
        if ITEM.match(line):
            before = number - 1
            while lines[before].lstrip().startswith("#["):
                before -= 1
            if not lines[before].lstrip().startswith("///"):
                yield f"line {number + 1} is a public item with no comment ///"


def complaints_of(root, path, text):
    if path.suffix not in ALSO_CITE:
        yield from long_lines(path, text)
    if path.suffix in USE:
        yield from unused_imports(path, text)
    if path.suffix == ".rt":
        yield from undocumented(text)
    if not str(path.relative_to(root)).startswith(MAY_CITE):
        yield from citations(path, text)


def main():
    root = pathlib.Path(sys.argv[1]).resolve() if len(sys.argv) > 1 else ROOT
    read = complaints = 0
    for path in files(root):
        text, read = path.read_text(encoding="utf-8"), read + 1
        found = list(complaints_of(root, path, text))
        complaints += len(found)
        for complaint in found:
            print(f"{path.relative_to(root)}: {complaint}")
    print(f"{read} files, {complaints} complaints of lines, imports, comments and citations")
    return 1 if complaints or not read else 0


if __name__ == "__main__":
    sys.exit(main())
