"""Compares the pages CALLING.md of the library crates with the sources that they quote, and writes these parts.

    python3 tests/calling_pages.py            prints what differs, and fails if anything does
    python3 tests/calling_pages.py --write    writes it anew

What stands between a line `<!-- KIND: WORDS -->` and the line `<!-- end -->` is written:

    source: FILE NAME        the function NAME of a source, with the lines before it that it needs: attributes, `use`, `ghost use`
    file: FILE               a file as it is
    contracts: NAME ..       the heads of these public functions of the crate, shortened
    laws: FILE ..            the laws of these files, each with the comment before it

A page of each library crate must be there, and each law that its folder proofs/calling has must be on it; a file of crates/uses that is
quoted may cite of the library crates' proofs only files that the pages name."""
import re
import sys
import textwrap

import public_calls

ROOT = public_calls.ROOT
CRATES = ("words", "activity", "masks", "grids", "run_ends", "dispatch")
PART = re.compile(r"(?ms)^<!-- (source|file|contracts|laws): ([^\n]*) -->\n.*?^<!-- end -->\n")
IDENT = r"[^\W\d][\w'-]*"


def fenced(kind, text):
    return f"```{kind}\n{text.strip()}\n```\n"


def code(path, name):
    """Returns a public function of a source with its comment, and the imports whose names it uses."""
    text = (ROOT / path).read_text(encoding="utf-8")
    found = re.search(rf"(?ms)^(?:///[^\n]*\n|#\[[^\n]*\n)*pub fn {name}\(.*?^\}}\n", text)
    if not found:
        sys.exit(f"{path} has no public function {name}")
    uses = [line for line in re.findall(r"(?m)^(?:ghost )?use .*;$", text) if used(line, found[0])]
    ghost = [line for line in uses if line.startswith("ghost")]
    plain = [line for line in uses if not line.startswith("ghost")]
    return fenced("rust", "\n\n".join(part for part in ("\n".join(ghost), "\n".join(plain), found[0]) if part))


def used(line, text):
    """Whether a text uses a name that an import brings; an operator if it has its symbol."""
    names = re.search(r"\{(.*)\}", line)
    names = names[1].split(", ") if names else [line.rstrip(";").split("::")[-1].split(".")[-1]]
    return any(name.strip("◌ ").replace("◌", "") in text for name in names)


def shortened(head):
    """Returns a function's head on one line, and a line for each clause."""
    head = re.sub(r"\s+", " ", head).strip()
    first, *clauses = re.split(r" (?=ensures\b|requires\b)", head)
    first = first.replace("( ", "(").replace(", )", ")").replace(",)", ")")
    clauses = [re.sub(r"^(ensures|requires) (?:([a-z_]+) )?{ (.*) }$", clause, one) for one in clauses]
    return "\n".join([wrapped(f"fn {first}"), *(wrapped(one, "      ", "  ") for one in clauses)])


def clause(match):
    return f"{match[1]}{' ' + match[2] if match[2] else ''}: {match[3]}"


def contracts(crate, names):
    heads = {call.name: (f"{call.owner}::" if call.owner else "") + call.head for call in public_calls.functions() if call.crate == crate}
    lacking = [name for name in names if name not in heads]
    if lacking:
        sys.exit(f"crates/{crate}/CALLING.md: {crate} has no public function {lacking[0]}")
    return fenced("text", "\n".join(shortened(heads[name]) for name in names))


def wrapped(line, indent="    ", first=""):
    options = {"break_long_words": False, "break_on_hyphens": False}
    return "\n".join(textwrap.wrap(line, 136, initial_indent=first, subsequent_indent=indent, **options))


def laws_of(path):
    """Yields each public law or record of a file: its name with its statement, and the comment before it."""
    text = re.sub(r"(?m)^use .*\n|^ *unfolding .*\n", "", (ROOT / path).read_text(encoding="utf-8"))
    shape = rf"(?ms)((?:^ *--[^\n]*\n)*)^( *)pub (?:(record) )?({IDENT})\b(.*?)(?=^\s*$|^ *{IDENT} [^:\n]* =|\Z)"
    for comment, indent, record, name, said in re.findall(shape, text):
        said = re.split(rf"\n{indent}{re.escape(name)}\b", said)[0]
        if record:
            head, *fields = re.split(r" where|\n\s*pub ", said)
            fields = [re.sub(r"\s+", " ", field).strip() for field in fields if field.strip()]
            said = f"{head.replace(' : Type 0', '')}: {'; '.join(fields)}"
        about = [line.strip(" -") for line in comment.strip().split("\n") if "----" not in line]
        yield f"{'record ' * bool(record)}{name}{re.sub(chr(92) + 's+', ' ', said).rstrip()}", " ".join(about).strip()


def laws(crate, paths):
    lines = []
    for path in paths:
        lines.append(f"-- use Rattle.{crate}.{path.removesuffix('.antt').replace('/', '.')}.{{..}}")
        for said, about in laws_of(f"crates/{crate}/{path}"):
            lines += [wrapped(about, "-- ", "-- ")] * bool(about) + [wrapped(said)]
    return fenced("text", "\n".join(lines))


def written(crate, text):
    def part(match):
        kind, words = match[1], match[2].split()
        if kind == "source":
            body = code(*words)
        elif kind == "file":
            body = fenced("antt", f"-- {words[0].removeprefix('crates/uses/')}\n" + (ROOT / words[0]).read_text(encoding="utf-8"))
        elif kind == "contracts":
            body = contracts(crate, words)
        else:
            body = laws(crate, words)
        return f"<!-- {kind}: {match[2]} -->\n{body}<!-- end -->\n"

    return PART.sub(part, text)


def cited(pages):
    """Yields a complaint for each file of proofs of a library crate that a proof of crates/uses cites and that no page names."""
    for path in sorted((ROOT / "crates/uses/proofs").rglob("*.antt")):
        for crate, module in re.findall(r"(?m)^use Rattle\.(\w+)\.(proofs\.[\w.]+?)(?:\.\{|$)", path.read_text(encoding="utf-8")):
            if crate in CRATES and f"Rattle.{crate}.{module}" not in pages:
                yield f"{path.relative_to(ROOT)} cites Rattle.{crate}.{module}, which no CALLING.md names"


def main():
    complaints, pages = [], ""
    for crate in CRATES:
        path = ROOT / "crates" / crate / "CALLING.md"
        text = path.read_text(encoding="utf-8") if path.exists() else ""
        wanted = written(crate, text)
        if "--write" in sys.argv[1:] and text != wanted:
            path.write_text(wanted, encoding="utf-8")
            text = wanted
        if text != wanted or not text:
            complaints.append(f"{path.relative_to(ROOT)} is not what the sources say: run tests/calling_pages.py --write")
        pages += text
        for folder in sorted((path.parent / "proofs/calling").glob("*.antt")):
            if f"Rattle.{crate}.proofs.calling.{folder.stem}" not in text:
                complaints.append(f"{path.relative_to(ROOT)} does not list the laws of proofs/calling/{folder.name}")
    complaints += cited(pages)
    print("\n".join([*complaints, f"{len(CRATES)} pages for callers, {len(complaints)} complaints"]))
    return 1 if complaints else 0


if __name__ == "__main__":
    sys.exit(main())
