"""Runs the code blocks of README.md, of the pages of the bindings and of docs/ARROW-RUN-ENDS.md as pasted, and compares their output.

    python3 tests/readme.py

The code blocks of a page are taken in order. A block `sh` is run in the repository's root, except the gate itself; `toml` and `rust` make
a crate next to a link to the repository named `poruwhina`; `c` is written to sample.c in a folder with links to `include` and `target`,
where the next block `sh` is run. If a paragraph that begins with 'prints' follows a block, it has what the block must print, each line
between backquotes. A block whose compiler is not installed is left out, and a line is printed about it."""
import os
import re
import shutil
import subprocess
import sys
import tempfile

ROOT = os.path.dirname(os.path.dirname(os.path.abspath(__file__)))
PAGES = ("README.md", "bindings/c/README.md", "bindings/rust/README.md", "docs/ARROW-RUN-ENDS.md")
GATE = "bash .ci/run"
BLOCK = re.compile(r"^```(\w+)\n(.*?)^```\n\n?((?:^prints\b.*?(?:\n\n|\Z))?)", re.S | re.M)
PACKAGE = '[package]\nname = "sample"\nversion = "0.1.0"\nedition = "2024"\n\n'


def blocks(page):
    """Returns language, text and expected lines of each code block."""
    with open(os.path.join(ROOT, page), encoding="utf-8") as file:
        found = BLOCK.findall(file.read())
    return [(kind, text, re.findall(r"`([^`]+)`", said)) for kind, text, said in found]


def run(words, where, want, shown):
    """Runs a command; exits with 1 if its status is not 0 or it does not print the lines `want`."""
    done = subprocess.run(words, cwd=where, stdin=subprocess.DEVNULL, capture_output=True, text=True, shell=isinstance(words, str))
    lines = done.stdout.splitlines()
    if done.returncode != 0 or (want and lines != want):
        print(f"`{shown}` ended with {done.returncode}, printed {lines}, wanted {want}")
        print(done.stderr[-2000:])
        sys.exit(1)


def missing(tool, what):
    if shutil.which(tool):
        return False
    print(f"left out, {tool} is not at hand: {what}")
    return True


def write(path, text):
    os.makedirs(os.path.dirname(path), exist_ok=True)
    with open(path, "w", encoding="utf-8") as file:
        file.write(text)


def ran_of(page, folder):
    """Runs the blocks of a page in a folder, and returns how many."""
    here = os.path.join(folder, "here")
    manifest = os.path.join(folder, "sample", "Cargo.toml")
    where, ran = ROOT, 0
    for kind, text, want in blocks(page):
        command = text.strip()
        if kind == "sh" and command != GATE:
            if where == ROOT or not missing("cc", f"the C sample of {page}"):
                run(command, where, want, command)
                ran += 1
            where = ROOT
        elif kind == "toml":
            write(manifest, PACKAGE + text)
        elif kind == "rust":
            write(os.path.join(folder, "sample", "src", "main.rs"), text)
            if not missing("cargo", f"the Rust sample of {page}"):
                run(["cargo", "run", "--quiet", "--offline"], os.path.dirname(manifest), want, f"cargo run, of {page}")
                ran += 1
        elif kind == "c":
            write(os.path.join(here, "sample.c"), text)
            where = here
    return ran


def main():
    for page in PAGES:
        with tempfile.TemporaryDirectory() as folder:
            os.symlink(ROOT, os.path.join(folder, "poruwhina"))
            os.mkdir(os.path.join(folder, "here"))
            for name in ("include", "target"):
                os.symlink(os.path.join(ROOT, name), os.path.join(folder, "here", name))
            ran = ran_of(page, folder)
        if not blocks(page):
            print(f"{page} has no block that can be run")
            sys.exit(1)
        print(f"{page}: {ran} blocks run as pasted")


main()
