"""Compares the declarations in C and Rust with the exports of crates/capi, and writes them.

    python3 tests/declarations.py            prints what differs, and fails if anything does (--check does the same)
    python3 tests/declarations.py --write    writes them anew, after a call was added

It writes the refusals that include/refusals.txt lists (in_refusals.py: names, numbers, texts and order, in the sources, statements, tables
and laws, in the header and in the Rust crate), the records and functions of include/poruwhina.h (in_c.py), the declarations of the Rust
crate with a safe function for each (in_rust.py), and include/interface.txt. It compares the records of the Rust crate, the flag limit, and
which refusals a definition's checks have. Nothing else compares these: a program that declares an export otherwise links, and then reads
the wrong bytes.

include/interface.txt holds the version of the interface and a digest of every record, function and number. Under one version no digest
may change or disappear: if one would, the version must be raised, in the name of the symbol that crates/capi/src/interface.rt exports.
Additions need no new version. If a number's words change and not its meaning, `--write --reworded` accepts the new words."""
import hashlib
import re
import sys

import in_c
import in_refusals
import in_rust
from exports import ROOT, exports, interface, lowered, records, records_of, refusals

INTERFACE = ROOT / "include/interface.txt"

# Each named number that is none of a refusal, and the line of a source from which it is taken.
NUMBERS = {
    "PW_FLAG_LIMIT": ("crates/masks/src/bitmap.rt", r"pub const LIMIT: usize = (\d+);"),
    "PW_INTERFACE": ("crates/capi/src/interface.rt", r"fn pw_interface_(\d+)\("),
}


def source_numbers():
    """Returns the named numbers: those of NUMBERS, and those of the refusals that a call gives."""
    numbers = {one.constant: one.number for one in in_refusals.given()}
    for name, (path, pattern) in NUMBERS.items():
        found = set(re.findall(pattern, (ROOT / path).read_text()))
        if len(found) != 1:
            sys.exit(f"{name}: {path} has {len(found)} numbers for it")
        numbers[name] = int(found.pop())
    return numbers


def rust_limit():
    text = (ROOT / "bindings/rust/src/bitmap/mod.rs").read_text()
    return {"PW_FLAG_LIMIT": int(re.search(r"const LIMIT: usize = ([\d_]+);", text)[1].replace("_", ""))}


def unlisted():
    """Returns a complaint for each number of include/refusals.txt that no check has though a call should give it, or that one has."""
    ones = in_refusals.listed()
    if sorted(one.number for one in ones) != list(range(1, len(ones) + 1)):
        yield f"{in_refusals.LIST} has not each number once"
    text = "\n".join(path.read_text() for path in sorted((ROOT / "crates").glob("*/specs/**/*.antt")))
    made = set(map(int, re.findall(r"\bcheck (\d+) ", text))) | in_refusals.OF_ACTIVITY
    for one in ones:
        if one.given != (one.number in made):
            yield f"{in_refusals.LIST}: {one.number} {one.name}: {'no' if one.given else 'a'} definition has its check"


def differences(where, declared, wanted):
    for name in sorted(set(wanted) | set(declared)):
        if name not in declared:
            yield f"{where} has no {name}"
        elif name not in wanted:
            yield f"{where} has {name}, which the sources have not"
        elif declared[name] != wanted[name]:
            yield f"{where} has {name} as {declared[name]}, the sources as {wanted[name]}"


def digests():
    """Returns each record, function and number with a digest of what a program relies on."""
    found = {}
    for name, (_, fields) in records().items():
        found[f"record {name}"] = fields
    for export in exports():
        if export.module != "interface":
            found[f"function {export.name}"] = [*lowered(export.arguments), ("", export.result)]
    for name, number in in_c.numbers().items():
        found[f"number {name}"] = number
    return {name: hashlib.sha256(repr(thing).encode()).hexdigest()[:16] for name, thing in found.items()}


def recorded():
    """Returns the version and the digests of include/interface.txt."""
    if not INTERFACE.exists():
        return 0, {}
    lines = [line.split() for line in INTERFACE.read_text().splitlines() if line and not line.startswith("#")]
    return int(lines[0][1]), {f"{kind} {name}": digest for kind, name, digest in lines[1:]}


def raised(reworded):
    """Returns a complaint for each change that the recorded version does not allow."""
    version, before = recorded()
    now = digests()
    if interface() < version:
        yield f"the version of the interface is {interface()}, and was {version}"
    if interface() == version:
        for name, digest in before.items():
            if now.get(name) != digest and not (reworded and name.startswith("number ")):
                yield f"{name} is not what version {version} of the interface has: raise the version, in crates/capi/src/interface.rt"


def interface_text():
    head = "# The version of the interface and a digest of each declaration: written by tests/declarations.py."
    lines = [head, f"interface {interface()}"]
    return "\n".join([*lines, *(f"{name} {digest}" for name, digest in digests().items())]) + "\n"


def compared():
    """Compares what the script does not write: the numbers, the Rust crate's records, and which files its folder of calls has."""
    numbers = source_numbers()
    yield from differences("the header", {name: number for name, (number, _) in in_c.numbers().items()}, numbers)
    limit = rust_limit()
    yield from differences("the Rust crate", limit, {name: numbers[name] for name in limit})
    yield from unlisted()
    text = "\n".join(path.read_text() for path in sorted(in_rust.CALLS.glob("*.rs")))
    wanted = {name: fields for name, (_, fields) in records().items()}
    yield from differences("the Rust crate", {name: fields for name, (_, fields) in records_of(text).items()}, wanted)
    strays = set(in_rust.CALLS.glob("*.rs")) - set(in_rust.files()[0]) - {in_rust.CALLS / "records.rs"}
    yield from (f"{path.relative_to(ROOT)} is of no module of crates/capi: delete it" for path in sorted(strays))
    # an export that returns a u8 returns the number itself
    answers = {"u8", *(name for name, (_, fields) in records().items() if fields[0][0] == "refusal")}
    for export in exports():
        if (export.name in refusals()) != (export.result in answers):
            yield f"crates/capi/proofs/statements/Refusals.antt and {export.name} differ in whether it can refuse"


def main():
    write = "--write" in sys.argv[1:]
    wrong = list(raised("--reworded" in sys.argv[1:]))
    files, lacking = in_rust.files()
    files = {in_c.HEADER: in_c.text(), **files, **in_refusals.files(), INTERFACE: interface_text()}
    if write and not wrong:
        for path, text in files.items():
            path.write_text(text)
    wrong += [f"{path.relative_to(ROOT)} is not what the sources give: run tests/declarations.py --write"
              for path, text in files.items() if not path.exists() or path.read_text() != text]
    wrong += [f"the comment of {name} in crates/capi has no example in Rust" for name in lacking]
    wrong += compared()
    for line in wrong:
        print(line)
    if wrong:
        sys.exit(1)
    found = f"{len(exports())} functions, {len(records())} records, {len(source_numbers())} numbers"
    print(f"{found}: declared in C and Rust as the sources have them, version {interface()} of the interface")


main()
