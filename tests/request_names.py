"""Compares the table of names in crates/notation/src/names.rt and the groups in call.rt with docs/REQUESTS.md and with crates/requests.

    python3 tests/request_names.py            prints what differs, and fails if anything does
    python3 tests/request_names.py --write    writes the table anew, and at its end a line for each call that it lacks; adds variants

A variant that an arm of crates/requests names and its group lacks is added to the group: so a new call is an arm there.

The table of REQUESTS has each call's arguments, from which their number follows, and its output; a call without arguments after a comma
has those of the call before it. The order of the lines and the variants are those of the file; the variant of a new line is the name of
the call in camel case, in the group of call.rt that has it and that the calls of the same row have, if several have it. CALLS is the number
of lines."""
import pathlib
import re
import sys

ROOT = pathlib.Path(__file__).resolve().parent.parent
NAMES = ROOT / "crates/notation/src/names.rt"
GROUPS = ROOT / "crates/notation/src/call.rt"
SIZES = {"M": 3, "B": 3, "C": 3, "W": 3, "T": 4, "OM": 4}
OUTPUTS = {"": "Nothing", "o": "Bytes", "i": "Numbers", "e, o": "EndsAndBytes"}
LINE = re.compile(r'(?m)^    "([^"]+)" (\d+) (\w+) Call::(.*);$')


def table():
    """Returns for each call of REQUESTS its arguments, its answer and its output, in the order of the table."""
    page = (ROOT / "docs/REQUESTS.md").read_text(encoding="utf-8")
    rows = page.split("| call | answer | output |\n")[1].split("\n\n")[0]
    found = {}
    for row in rows.split("\n")[1:]:
        cells = [cell.strip() for cell in row.split("|")[1:-1]]
        arguments = []
        for before, text in re.findall(r"(^|[,;]) ?`([^`]+)`", cells[0]):
            name, *own = text.split(" ")
            arguments = own if own or before != "," else arguments
            found[name] = arguments, cells[1], cells[2]
    return found


def shapes():
    """Returns for each call its arguments and its output."""
    return {name: (arguments, output) for name, (arguments, _, output) in table().items()}


ENUM = re.compile(r"(pub enum (\w+)Call \{\n)(.*?)(\n\})", re.S)


def with_variants(text):
    """Returns call.rt with the variants that arms of crates/requests name, each added at the end of its group."""
    named = {}
    for path in sorted((ROOT / "crates/requests/src").glob("*.rt")):
        for group, variant in re.findall(r"\b(\w+)Call::(\w+)", path.read_text(encoding="utf-8")):
            named.setdefault(group, []).append(variant)

    def filled(enum):
        lacking = dict.fromkeys(variant for variant in named.get(enum[2], ()) if not re.search(rf"(?m)^    {variant}\b", enum[3]))
        return enum[1] + enum[3] + "".join(f"\n    {variant}," for variant in lacking) + enum[4]

    return ENUM.sub(filled, text)


def groups():
    """Returns for each variant the groups that have it, by the enums of call.rt."""
    found = {}
    for _, group, body, _ in ENUM.findall(with_variants(GROUPS.read_text(encoding="utf-8"))):
        for variant in re.findall(r"(?m)^    (\w+),", body):
            found.setdefault(variant, []).append(group)
    return found


def line(name, shape, call):
    arguments, output = shape
    return f'    "{name}" {sum(SIZES.get(kind, 1) for kind in arguments)} {OUTPUTS[output]} Call::{call};'


def call_of(name, shape, known, found):
    """Returns the variant of a new call: in camel case, in the only group that has it, or in that of calls of the same shape."""
    variant = "".join(part.capitalize() for part in re.split(r"_|::", name))
    near = {known[other].split("(")[0] for other in known if found.get(other) == shape}
    having = [group for group in groups().get(variant, ()) if group in near] or groups().get(variant, [])
    return f"{having[0]}({having[0]}Call::{variant})" if len(having) == 1 else None


def main():
    old, found = NAMES.read_text(encoding="utf-8"), shapes()
    known = {name: call for name, _, _, call in LINE.findall(old)}
    complaints = [f"docs/REQUESTS.md has no call {name}" for name in known if name not in found]
    rows = [line(name, found[name], call) for name, call in known.items() if name in found]
    for name, shape in found.items():
        if name not in known:
            call = call_of(name, shape, known, found)
            rows += [line(name, shape, call)] if call else []
            complaints += [] if call else [f"{name}: no arm of crates/requests makes a variant of this name, or several groups have it"]
    text = re.sub(r"(?s)(names!\[\n).*?(\n\];)", lambda table: table[1] + "\n".join(rows) + table[2], old)
    text = re.sub(r"(const CALLS: usize = )\d+", rf"\g<1>{len(rows)}", text)
    kept = GROUPS.read_text(encoding="utf-8")
    if "--write" in sys.argv:
        NAMES.write_text(text, encoding="utf-8")
        GROUPS.write_text(with_variants(kept), encoding="utf-8")
        kept = with_variants(kept)
    elif text != old:
        changed = sorted(set(text.split("\n")) ^ set(old.split("\n")))
        complaints += ["crates/notation/src/names.rt is not what REQUESTS and call.rt give: run tests/request_names.py --write", *changed]
    if with_variants(kept) != kept:
        complaints.append("crates/notation/src/call.rt lacks a variant that requests make: run tests/request_names.py --write")
    print("\n".join(complaints + [f"{len(rows)} names of calls, {len(complaints)} complaints"]))
    return 1 if complaints else 0


if __name__ == "__main__":
    sys.exit(main())
