"""Compares the `unfolding` lines of computed rows with the definitions that the rows reach, and writes them.

    python3 tests/unfolded.py            prints for each theorem of proofs/computed/ the shut definitions that it lacks; fails if one does
    python3 tests/unfolded.py --write    adds them, each with its import, after the names that are there

A row computes only if each shut definition (`unfoldable`) on its way is named. The way is found by names: from what the theorem states
through the tables and the definitions, by the imports of each file; so a definition may be added that no row's computation comes to, which
costs nothing. What a crate cannot name is left out: a definition of a crate that it does not use and that no file passes on by `unfoldable
pub use`. A definition of the toolchain's library is named by hand."""
import functools
import pathlib
import re
import sys

ROOT = pathlib.Path(__file__).resolve().parent.parent
NAME = r"[^\W\d][\w'-]*"
IDENT = re.compile(NAME)
USE = re.compile(r"(?m)^(unfoldable )?(pub )?use Rattle\.(\w+)\.([\w.]+)\.\{([^}]*)\}$")
START = re.compile(rf"(?m)^(unfoldable |abbrev )?(?:pub )?(?:(?:record|data) )?(?!use |mod |module |unfolding )({NAME})(?= )")
THEOREM = re.compile(r"(?m)^(?:pub )?(\S+) : ([^\n]*)\nunfolding([^\n]*\n(?:    [^\n]*\n)*)")
WIDTH = 140


class File:
    """An antt file: its definitions with whether they are shut, and the names that it takes, with where from."""

    def __init__(self, text):
        text = re.sub(r"--[^\n]*", "", text)
        self.taken, self.passed, self.texts, self.shut = {}, set(), {}, set()
        for shut, public, crate, module, names in USE.findall(text):
            for part in names.split(","):
                name, _, other = part.strip().partition(" as ")
                self.taken[other or name] = (crate, module), name
                if shut and public:
                    self.passed.add(other or name)
        starts = list(START.finditer(text))
        for start, end in zip(starts, [*(start.start() for start in starts[1:]), len(text)]):
            self.texts[start[2]] = self.texts.get(start[2], "") + text[start.start() : end]
            if start[1] == "unfoldable ":
                self.shut.add(start[2])


@functools.cache
def file(crate, module):
    path = ROOT / "crates" / crate / (module.replace(".", "/") + ".antt")
    return File(path.read_text(encoding="utf-8")) if path.is_file() else File("")


def where(module, name):
    """Returns the module that defines what a module calls by this name, and its name there."""
    if name in file(*module).texts:
        return module, name
    return where(*file(*module).taken[name]) if name in file(*module).taken else None


def reached(module, statement):
    """Returns the shut definitions that a statement in a module reaches, each with its module."""
    waiting, seen = [(module, name) for name in IDENT.findall(statement)], set()
    while waiting:
        found = where(*waiting.pop())
        if found and found not in seen:
            seen.add(found)
            waiting += [(found[0], name) for name in IDENT.findall(file(*found[0]).texts[found[1]])]
    return {found for found in seen if found[1] in file(*found[0]).shut}


@functools.cache
def used():
    lines = [line.partition(":") for line in (ROOT / "crates.txt").read_text(encoding="utf-8").split("\n") if line and line[0] != "#"]
    return {head.split()[0]: used.split() for head, _, used in lines}


@functools.cache
def passing():
    """Returns for each name that a file passes on the first such file of each crate."""
    found = {}
    for path in sorted((ROOT / "crates").glob("*/proofs/**/*.antt")):
        crate, *parts = path.relative_to(ROOT / "crates").with_suffix("").parts
        for name in file(crate, ".".join(parts)).passed:
            found.setdefault((crate, name), ".".join(parts))
    return found


def source(crate, module, name):
    """Returns the module from which a crate takes a definition of a module; none if it can name no such module."""
    if module[0] == crate or module[0] in used()[crate]:
        return module
    return next(((other, passing()[other, name]) for other in used()[crate] if (other, name) in passing()), None)


def with_import(text, module, name):
    """Returns a file with one more name taken from a module, on a line of its own if none has room."""
    if module == "own" or re.search(rf"(?m)^(?:unfoldable )?(?:pub )?use [^\n]*[{{ ]{re.escape(name)}[,}}]", text):
        return text
    head = f"use Rattle.{module[0]}.{module[1]}.{{"
    for line in text.split("\n"):
        if line.startswith(head) and len(line) + len(name) + 2 <= WIDTH:
            return text.replace(line, line[:-1] + f", {name}}}", 1)
    at = text.index("use Rattle.")
    return text[:at] + head + name + "}\n" + text[at:]


def lacking(crate, path):
    """Returns for each theorem of a file what its `unfolding` lacks: names with the module that each is taken from."""
    module, found = (crate, f"proofs.computed.{path.stem}"), []
    for theorem in THEOREM.finditer(path.read_text(encoding="utf-8")):
        names = {(source(crate, *place), place[1]) for place in reached(module, theorem[2]) if place[1] not in theorem[3].split()}
        found.append((theorem[0], theorem[1], sorted((place, name) for place, name in names if place)))
    return found


def main():
    complaints = []
    for path in sorted((ROOT / "crates").glob("*/proofs/computed/*.antt")):
        crate, text = path.parts[-4], path.read_text(encoding="utf-8")
        for block, theorem, names in lacking(crate, path):
            if not names or "--write" not in sys.argv:
                complaints += [f"{path.relative_to(ROOT)}: {theorem} does not unfold {name}" for _, name in names]
                continue
            lines = block.rstrip("\n").split("\n")
            for module, name in names:
                longer = f"{lines[-1]} {name}"
                lines[-1:] = [longer] if len(longer) <= WIDTH and lines[-1] != "unfolding" else [lines[-1], f"    {name}"]
                text = with_import(text, "own" if module == (crate, f"proofs.computed.{path.stem}") else module, name)
            text = text.replace(block, "\n".join(lines) + "\n")
        if "--write" in sys.argv:
            path.write_text(text, encoding="utf-8")
    print("\n".join(complaints + [f"{len(complaints)} complaints of unfolded definitions"]))
    return 1 if complaints else 0


if __name__ == "__main__":
    sys.exit(main())
