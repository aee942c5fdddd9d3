#!/usr/bin/env python3
"""Runs requests on damaged copies of the sources, unproved, and compares the output with the output expected of that damage.

    python3 tests/copies.py [--write] [NAME..]

For each NAME in tests/copies there are three files: NAME.edit, the damage, in the form that tests/test_copy.py takes; NAME.stdin, requests
with their right answers (docs/REQUESTS.md), which tests/cases.py computes again; NAME.stdout, what the program `cases` prints for them on
the damaged copy: the lines that differ, with the wrong answers, and the totals. On the undamaged sources no request of NAME.stdin may
differ. --write writes NAME.stdout anew. The exit status is 1 if a program printed something else, 2 if an edit does not fit or a copy does
not compile.
"""
import re
import subprocess
import sys

sys.dont_write_bytecode = True
from test_copy import ROOT, Unfit, difference, printed

COPIES = ROOT / "tests" / "copies"
PROGRAM = "cases"
RIGHT = re.compile(r"^total: [1-9]\d* requests, \d+ calls, 0 differ\nrequests with no answer: 0\nmalformed lines: 0$", re.M)


def damaged(edit, write):
    """Returns whether the damaged copy printed what it must."""
    expected = edit.with_suffix(".stdout")
    stdin = edit.with_suffix(".stdin")
    got = printed([edit], PROGRAM, [stdin])[stdin]
    if write:
        expected.write_bytes(got)
    same = got == expected.read_bytes()
    print(f"{edit.stem}: the copy answers {'as expected of it' if same else 'otherwise than expected of it'}")
    if not same:
        print("\n".join(difference(expected.read_bytes(), got)))
    return same


def undamaged(edits):
    """Returns whether the undamaged sources answer every request as its line says, and whether tests/cases.py does."""
    model = [sys.executable, ROOT / "tests" / "cases.py"]
    right = all([subprocess.run([*model, edit.with_suffix(".stdin")], check=False).returncode == 0 for edit in edits])
    for stdin, printed_there in printed([], PROGRAM, [edit.with_suffix(".stdin") for edit in edits]).items():
        got = printed_there.decode()
        if not RIGHT.search(got):
            print(f"{stdin.stem}: the sources as they are answer otherwise than the requests say:\n{got[:2000]}")
            right = False
    return right


def main():
    write = "--write" in sys.argv[1:]
    names = [word for word in sys.argv[1:] if word != "--write"]
    edits = [COPIES / f"{name}.edit" for name in names] or sorted(COPIES.glob("*.edit"))
    try:
        right = undamaged(edits)
        for edit in edits:
            right = damaged(edit, write) and right
    except Unfit as unfit:
        print(unfit)
        sys.exit(2)
    sys.exit(0 if right else 1)


if __name__ == "__main__":
    main()
