#!/usr/bin/env python3
"""Runs programs on an edited copy of the sources, unproved, and compares what they print with what is expected of the copy.

    python3 tests/test_copy.py [--expect FILE] [--stdin FILE] [--show] PROGRAM[,PROGRAM..] EDIT..
    python3 tests/test_copy.py replay                         with no edit: compares the output with crates/replay/stdout
    python3 tests/test_copy.py cases,replay crates/*/must-fail/*.edit        a table: which program detects which edit

An EDIT is a file in the form of the must-fail edits: `file: src/x.rt`, then pairs of `old:` and `new:` lines; each old text occurs once
in the file. A `file:` of an edit below crates/NAME is of that crate; elsewhere its path begins at the repository
(`file: crates/masks/src/x.rt`). Several edits are tried one by one, each in a fresh copy; `A.edit+B.edit` applies two together. An edit
that touches no file of src/ is left out.

A copy has only src/ and specs/. `rt try --cases` compiles the program there with no proof, and with run-time checks of what a proof would
show (an index out of bounds, an overflow), and runs it on its file `stdin` (or FILE). What it prints is compared with the file `stdout` of
the repository (or --expect FILE, `-` for what the unedited sources print). --show prints the first differing lines.

The exit status is 0 if every program printed what is expected of every copy, 1 if one did not, 2 if an edit does not fit or does not
compile.
"""

import contextlib
import pathlib
import shutil
import subprocess
import sys
import tempfile
import time

ROOT = pathlib.Path(__file__).resolve().parent.parent
LIMIT = 1200  # seconds that a program may run
STEPS = 1  # of the interpreter, whose run is cut short: it has no call that reads input in parts


def dependencies(root):
    table = {}
    for line in (root / "crates.txt").read_text().splitlines():
        line = line.split("#")[0]
        if ":" in line:
            name, deps = line.split(":")
            table[name.split()[0]] = deps.split()
    return table


def reached(root, program):
    """Returns the crates of the repository that a program uses, directly or through others, and the program itself."""
    table = dependencies(root)
    found, todo = [], [program]
    while todo:
        name = todo.pop(0)
        if name in table and name not in found:
            found.append(name)
            todo += table[name]
    return found


class Unfit(Exception):
    """An edit that does not fit the sources."""


def pairs(edit):
    """Yields the (file, old, new) of an edit that are for sources, with the file's path in the repository."""
    edit = edit.resolve()
    base = ""
    if ROOT / "crates" in edit.parents:
        base = "crates/" + edit.relative_to(ROOT / "crates").parts[0] + "/"
    file = old = None
    for line in edit.read_text().splitlines():
        if line.startswith("file: "):
            file = base + line[6:] if not line[6:].startswith("crates/") else line[6:]
        elif line.startswith("old: "):
            old = line[5:]
        elif line.startswith("new:") and "/src/" in file:
            yield file, old, line[5:]


def apply(copy, edits):
    """Applies the edits to a copy. Skips a crate that is not in it, which the program does not use."""
    for edit in edits:
        for file, old, new in pairs(edit):
            path = copy / file
            if not (copy / "crates" / file.split("/")[1]).is_dir():
                continue
            text = path.read_text()
            if text.count(old) != 1:
                raise Unfit(f"{edit.name}: in {file} stands {text.count(old)} times: {old}")
            path.write_text(text.replace(old, new))


def lay_out(copy, name):
    """Copies the program and the crates below it, and writes a crates.txt that lists these."""
    wanted = reached(ROOT, name)
    lines = (ROOT / "crates.txt").read_text().splitlines()
    listed = [line for line in lines if ":" in line.split("#")[0] and line.split(":")[0].split()[0] in wanted]
    (copy / "crates.txt").write_text("\n".join(listed) + "\n")
    for crate in wanted:
        for part in ("src", "specs"):
            if (ROOT / "crates" / crate / part).is_dir():
                shutil.copytree(ROOT / "crates" / crate / part, copy / "crates" / crate / part)


def outputs(said, stdins):
    """Returns what the program printed on each input, from the output of `rt try --cases`."""
    found = {}
    for stdin in stdins:
        _, mark, rest = said.partition(f"== {stdin.stem}\n".encode())
        text, mark, end = rest.partition(f"case={stdin.stem} ".encode())
        if not mark:
            raise Unfit(f"rt try says nothing of {stdin.stem}:\n{said.decode(errors='replace')[-2000:]}")
        verdict = end.split(b"\n")[0].decode()
        found[stdin] = text if " run=ended status=0 " in f" {verdict} " else text + f"it did not end well: {verdict}\n".encode()
    return found


@contextlib.contextmanager
def made_copy(edits, name):
    """Returns a copy of the sources with these edits."""
    with tempfile.TemporaryDirectory(prefix="test-copy-") as folder:
        copy = pathlib.Path(folder)
        lay_out(copy, name)
        apply(copy, edits)
        yield copy


def printed(edits, name, stdins):
    """Returns what the program prints on a copy with these edits, for each of these inputs."""
    with made_copy(edits, name) as copy:
        cases = copy / "cases"
        cases.mkdir()
        for stdin in stdins:
            if stdin.exists():
                shutil.copy(stdin, cases / stdin.stem)
            else:
                (cases / stdin.stem).touch()
        words = ["rt", "try", "--steps", str(STEPS), "--seconds", str(LIMIT), "--cases", str(cases)]
        how = {"stdin": subprocess.DEVNULL, "stdout": subprocess.PIPE, "stderr": subprocess.STDOUT}
        ran = subprocess.run(words, cwd=copy / "crates" / name, check=False, **how)
        if b"\ncases=" not in b"\n" + ran.stdout:
            raise Unfit(f"{name} does not compile:\n{ran.stdout.decode(errors='replace')[:2000]}")
        return outputs(ran.stdout, stdins)


def difference(expected, got):
    lines = zip(expected.decode(errors="replace").splitlines() + [""] * 9999, got.decode(errors="replace").splitlines())
    return [f"    {number}: {found}" for number, (wanted, found) in enumerate(lines, 1) if wanted != found][:5]


def options(words):
    chosen = {"--expect": None, "--stdin": None, "--show": False}
    while words and words[0].startswith("--"):
        word = words.pop(0)
        chosen[word] = True if word == "--show" else words.pop(0)
    return chosen, words


def main():
    chosen, words = options(sys.argv[1:])
    if not words:
        sys.exit(__doc__)
    programs = words[0].split(",")
    edits = [[pathlib.Path(part) for part in word.split("+")] for word in words[1:]] or [[]]
    status = 0
    for edit in edits:
        if edit and not any(True for part in edit for _ in pairs(part)):
            continue
        label = "+".join(part.stem for part in edit) or "no edit"
        for name in programs:
            stdin = pathlib.Path(chosen["--stdin"]) if chosen["--stdin"] else ROOT / "crates" / name / "stdin"
            begun = time.time()
            try:
                if chosen["--expect"] == "-":
                    expected = printed([], name, [stdin])[stdin]
                else:
                    expected = pathlib.Path(chosen["--expect"] or ROOT / "crates" / name / "stdout").read_bytes()
                got = printed(edit, name, [stdin])[stdin]
            except Unfit as unfit:
                print(f"{label} | {name} | {unfit}")
                status = 2
                continue
            same = got == expected
            status = status if same else max(status, 1)
            print(f"{label} | {name} | {'as expected' if same else 'differs'} | {time.time() - begun:.0f} s", flush=True)
            if chosen["--show"] and not same:
                print("\n".join(difference(expected, got)))
    sys.exit(status)


if __name__ == "__main__":
    main()
