"""Compares the tables of modules in docs/ARCHITECTURE.md with the sources, and writes them; adds rows to docs/CALLS.md.

    python3 tests/modules_page.py            prints what differs, and fails if anything does
    python3 tests/modules_page.py --write    writes the tables anew, and in docs/CALLS.md a row for each public function that has none

Of a module a table has what the first sentence of its file says and its public functions. A row that is added to CALLS has as its answer
the first sentence of the function's comment, to be made plainer by hand; the other cells are filled by tests/calls_page.py --write."""
import pathlib
import re
import sys

import calls_page

ROOT = pathlib.Path(__file__).resolve().parent.parent
ARCHITECTURE = ROOT / "docs/ARCHITECTURE.md"
CALLS = ROOT / "docs/CALLS.md"
HEAD = "| module | what | public functions |\n|---|---|---|\n"
TABLE = re.compile(rf"(?ms)^## ([^\n]*)\n((?:(?!^## ).)*?){re.escape(HEAD)}(.*?)\n\n")
FUNCTION = re.compile(r"(?m)^impl (\w+)(?![^\n]*\{\}$)|^(\})|((?:^ *//[^\n]*\n)*)(?:^ *#\[[^\n]*\]\n)*^ *pub (?:const )?fn (\w+)")


def said(comment):
    """Returns the first sentence of a comment, without its full stop."""
    lines = [re.sub(r"^ *//[!/]? ?", "", line) for line in comment.strip("\n").split("\n")]
    text = " ".join(lines[: lines.index("")] if "" in lines else lines)
    return re.split(r"\.(?= [A-Z`])|\.$", text)[0].replace("|", "\\|")


def functions(path):
    """Yields the public functions of a source with the first sentence of the comment of each."""
    owner = ""
    for match in FUNCTION.finditer(path.read_text(encoding="utf-8")):
        if match[4]:
            yield f"{owner}::{match[4]}" if owner else match[4], said(match[3])
        else:
            owner = match[1] or ""


def modules(crate):
    """Returns the modules of a crate that are files: the public ones with public functions first. One that stands in the folder of
    another has the other's name before its own."""
    src = ROOT / f"crates/{crate}/src"
    found, waiting = [], [("", src / "lib.rt", src)]
    while waiting:
        above, list_of, folder = waiting.pop()
        for public, name in re.findall(r"(?m)^(pub )?mod (\w+);", list_of.read_text(encoding="utf-8")):
            path = folder / f"{name}.rt"
            found.append((not public, above + name, path, dict(functions(path))))
            waiting.append((f"{above}{name}::", path, folder / name))
    return sorted(found, key=lambda module: (not module[3], module[0], module[1]))


def row(name, private, path, public):
    comment = re.match(r"(?://[^\n]*\n)+", path.read_text(encoding="utf-8"))
    shown = ", ".join(f"`{function}`" for function in public)
    cells = [name + (" (private)" if private and not public else ""), said(comment[0]) if comment else "", shown]
    return "| " + " | ".join(cells).replace("|  ", "| ").rstrip() + " |"


def tables(text):
    """Returns a page in which the table below each heading that names crates has their modules."""

    def anew(table):
        crates = [crate for crate in re.findall(r"\w+", table[1]) if (ROOT / "crates" / crate / "src/lib.rt").exists()]
        rows = [row(f"`{crate}`, `{name}`" if len(crates) > 1 else f"`{name}`", private, path, public)
                for crate in crates for private, name, path, public in modules(crate)]
        return f"## {table[1]}\n{table[2]}{HEAD}" + "\n".join(rows) + "\n\n"

    return TABLE.sub(anew, text)


def places(page):
    """Returns each table of calls of CALLS: where it ends, its columns, and the functions that it has."""
    found = []
    for table in re.finditer(r"(?m)^\| call \|[^\n]*\n\|---[^\n]*\n((?:\|[^\n]*\n)+)", page):
        columns = calls_page.cells_of(table[0].split("\n")[0])
        found.append((table.end(), columns, re.findall(r"(?m)^\| `([\w:]+)(?:\(.*?\))?` \|", table[1])))
    return found


def added(page):
    """Returns CALLS with a row for each public function that has none: in the table with the most functions of its module, or of its crate
    if none has one of its module."""
    for crate in calls_page.CRATES:
        known = {module: list(public) for _, module, _, public in modules(crate)}
        whole = {name for public in known.values() for name in public}
        for _, module, _, public in modules(crate):
            for name, answer in public.items():
                here = places(page)
                if any(name in names for _, _, names in here):
                    continue
                end, columns, _ = max(here, key=lambda table: (len(set(table[2]) & set(known[module])), len(set(table[2]) & whole)))
                cells = {"call": f"`{name}()`", "answer": re.sub(r"^Returns ", "", answer)}
                line = "| " + " | ".join(cells.get(column, "") for column in columns) + " |\n"
                page = page[:end] + line + page[end:]
    return page


def main():
    complaints = []
    for path, make in ((ARCHITECTURE, tables), (CALLS, added)):
        old = path.read_text(encoding="utf-8")
        new = make(old)
        if "--write" in sys.argv:
            path.write_text(new, encoding="utf-8")
        elif new != old:
            kept = set(old.split("\n"))
            complaints += [f"{path.relative_to(ROOT)} wants: {line}" for line in new.split("\n") if line not in kept]
    found = sum(len(public) for crate in calls_page.CRATES for _, _, _, public in modules(crate))
    print("\n".join(complaints + [f"{found} public functions in tables of modules, {len(complaints)} complaints"]))
    return 1 if complaints else 0


if __name__ == "__main__":
    sys.exit(main())
