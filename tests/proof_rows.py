"""Writes the proofs that a row of a table or a field of a statement has by its form alone.

    python3 tests/proof_rows.py            fails if a file has others
    python3 tests/proof_rows.py --write    writes them

- proofs/computed/ of masks, and of a crate above it whose calls are exported: an entry of each field of a `Wrong*` table, `tried CODE refl
  refl refl`, where CODE says how an answer of the field's type is written as numbers. A new record needs its code there, `abbrev x_code :
  Code X`; an entry is kept if its type has a variable. In masks also a clause of `witnessed` for each family.
- proofs/theorems/Refusals.antt of masks: the fields of the statement that are of the form `FailsBy (may_give ..) (checks)`, the clauses of
  each family, and the lists of checks that must be unfolded.
- proofs/theorems/Refusals.antt of capi: the entries that export_proofs.py makes.
- proofs/theorems/ of capi, AnswerPlain, RecordPlain and StepPlain: the entries of each record of which all are by computation.

What else a proof needs is written by hand; a field of `Refusals` of another form needs its law in OTHERS."""
import re
import sys

import export_proofs
import unfolded
from unfolded import ROOT, WIDTH, with_import

MASKS = ROOT / "crates/masks/proofs"
# Fields of `Refusals` of another form, with their laws.
OTHERS = {"in_order": "all-in-order", "never_seven": "seven_never"}


def imported(text, module, names):
    """Returns a file that takes these names, each from where a module takes it."""
    for name in names:
        found = unfolded.where(("masks", module), name)
        if found:
            text = with_import(text, found[0], name)
    return text


def fields(text):
    """Returns the fields of the last record of a text: the name and the type of each."""
    body = re.sub(r"--[^\n]*", "", text[text.rindex("pub record ") :]).partition(" where\n")[2]
    blocks = re.split(r"(?m)^  pub ", body)[1:]
    return [(head.strip(), " ".join(kind.split())) for head, _, kind in (block.partition(" : ") for block in blocks)]


def with_families(text):
    """Returns a file that takes each family from the statement."""
    for family in families():
        text = with_import(text, ("masks", "proofs.statements.Refusals"), family)
    return text


def families():
    text = (MASKS / "statements/Refusals.antt").read_text(encoding="utf-8")
    return re.findall(r"(?m)^  (\S+) : Family$", text)


def clauses(text, name, lines):
    """Returns a text with these lines in the place of the clauses of a function, after its type and what it unfolds."""
    clause = rf"(?:^{re.escape(name)} (?!:)[^\n]*\n)+"
    if len(re.findall(rf"(?m){clause}", text)) != 1:
        raise SystemExit(f"{name}: its clauses are not in one place")
    return re.sub(rf"(?m){clause}", lambda _: "".join(lines), text)


def entries(text, name, lines):
    """Returns a text with these lines as the entries of the record that a definition is."""
    pattern = rf"(?m)(^{re.escape(name)} =\n    record \{{\n)(?:      [^\n]*\n)+(    \}}\n)"
    if len(re.findall(pattern, text)) != 1:
        raise SystemExit(f"{name}: it is no record")
    return re.sub(pattern, lambda found: found[1] + "".join(lines) + found[2], text)


# ---- the theorem on refusals


def refusals():
    path, statement = MASKS / "theorems/Refusals.antt", (MASKS / "statements/Refusals.antt").read_text(encoding="utf-8")
    text = path.read_text(encoding="utf-8")
    lines, named, module = [], [], "proofs.statements.Refusals"
    for name, kind in fields(statement):
        found = re.fullmatch(r"(.*?) → FailsBy (?:\(may_give \S+\)|\[\]) \((.*)\)", kind)
        if not found:
            lines.append(f"      {name} = {OTHERS[name]};\n")
            continue
        variables = " ".join(part for group in re.findall(r"\(([^():]*) : [^()]*\)", found[1]) for part in group.split())
        line = f"      {name} = λ {variables}. fails-by _ ({found[2]}) refl;\n"
        lines.append(line if len(line) <= WIDTH + 1 else line.replace(". fails-by", ".\n          fails-by", 1))
        named += unfolded.IDENT.findall(found[2])
    text = clauses(text, "all-in-order", [f"all-in-order {family} = refl\n" for family in families()])
    text = entries(text, "refusals", lines)
    seen = set().union(*(unfolded.reached(("masks", module), name) for name in named))
    shut = sorted({place for place in seen if place[1].endswith("_checks")})
    head = "pub refusals : Refusals\nunfolding\n"
    body = re.search(rf"{head}((?:    [^\n]*\n)+)", text)[1]
    present = body.split()
    kept = [name for name in present if not name.endswith("_checks") or name in {place[1] for place in shut}]
    new = [place for place in shut if place[1] not in present]
    if new or kept != present:
        rows = ["   "]
        for name in kept + [name for _, name in new]:
            rows[-1:] = [f"{rows[-1]} {name}"] if len(f"{rows[-1]} {name}") <= 132 else [rows[-1], f"    {name}"]
        text = text.replace(head + body, head + "\n".join(rows) + "\n")
    for where, name in new:
        text = with_import(text, where, name)
    text = imported(text, module, [name for name in dict.fromkeys(named) if unfolded.where(("masks", module), name)])
    return path, with_families(text)


def witnesses():
    path = MASKS / "computed/Witnesses.antt"
    text = clauses(path.read_text(encoding="utf-8"), "witnessed", [f"witnessed {family} = refl\n" for family in families()])
    return path, with_families(text)


# ---- wrong answers


def split(text, mark):
    """Returns the parts of a type between marks that are in no parentheses."""
    parts, depth = [""], 0
    for token in re.findall(r"[(){}]|[^\s(){}]+|\s+", text):
        depth += token in "({" and token.strip() != ""
        depth -= token in ")}" and token.strip() != ""
        if token == mark and not depth:
            parts.append("")
        else:
            parts[-1] += token
    return [part.strip() for part in parts]


def bare(text):
    """Returns a type without the parentheses around it."""
    while text.startswith("(") and len(split(text[1:-1], "→")) >= 1 and closes(text):
        text = text[1:-1].strip()
    return text


def closes(text):
    depth = 0
    for at, letter in enumerate(text):
        depth += (letter == "(") - (letter == ")")
        if not depth:
            return at == len(text) - 1
    return False


def declared(module, name):
    """Returns the type of what a definition returns, and the module where it is defined."""
    place = unfolded.where(module, name)
    if not place:
        return None
    text = unfolded.file(*place[0]).texts[place[1]]
    kind = re.search(rf"(?:abbrev |unfoldable )?(?:pub )?{re.escape(place[1])} : ([^\n]*(?:\n +→[^\n]*)*)", text)
    return kind and (split(" ".join(kind[1].split()), "→")[-1], place[0])


def meant(kind, module):
    """Returns a type with an abbreviation of the tables in its place resolved."""
    kind = bare(kind)
    place = unfolded.where(module, kind) if unfolded.IDENT.fullmatch(kind) else None
    text = unfolded.file(*place[0]).texts.get(place[1], "") if place else ""
    same = re.search(rf"(?m)^{re.escape(kind)} = (.*)$", text)
    return meant(same[1], place[0]) if same and ": Type" in text.split("\n")[0] else (kind, module)


def code(kind, module, own):
    """Returns how a value of a type is written as numbers, by the codes of the file of rows."""
    kind, module = meant(kind, module)
    if kind in own:
        return own[kind]
    pair = split(kind, "×")
    if len(pair) == 2:
        first = code(pair[0], module, own)
        return f"writing {inner(first)}" if pair[1] == "List ℕ" else f"both {inner(first)} {inner(code(pair[1], module, own))}"
    head, *parts = [part for part in split(kind, " ") if part]
    if head == "Answer":
        state, value = bare(parts[0]), bare(parts[1])
        if value.startswith("Step "):
            cursor, item = [part for part in split(value, " ") if part][1:]
            return f"stepping {inner(code(cursor, module, own))} {inner(code(item, module, own))}"
        if state.startswith("Unit"):
            return f"plain {inner(code(value, module, own))}"
        return f"answer {inner(code(state, module, own))} {inner(code(value, module, own))}"
    if head == "Option":
        return f"option {inner(code(parts[0], module, own))}"
    raise SystemExit(f"no code for the type {kind}: write `abbrev x_code : Code {kind}`")


def inner(text):
    return f"({text})" if " " in text else text


def with_codes(text, crate, lines):
    """Returns a file of a crate above masks that takes from masks the codes in its entries."""
    names = set(re.findall(r"[A-Za-z]\w*", " ".join(re.findall(r" = tried (.*) refl refl refl;", "".join(lines)))))
    for name in sorted(names - set(re.findall(r"(?m)^abbrev (?:pub )?(\w+) :", text)) - {"bytes"}) if crate != "masks" else ():
        text = with_import(text, ("masks", "proofs.computed.WrongAnswers"), name)
    return text


# the codes of masks, which a crate above it may use too
CODES = "crates/masks/proofs/computed/WrongAnswers.antt"


def answers(crate, path, table):
    """Returns a file of rows of a `Wrong*` table with an entry for each field."""
    text = path.read_text(encoding="utf-8")
    own = {"ℕ": "number", "Bool": "flag", "List ℕ": "(λ bytes. bytes)"}
    for codes in ((ROOT / CODES).read_text(encoding="utf-8"), text):
        named = re.findall(r"(?m)^abbrev (?:pub )?(\w+_code) : Code (.*)$", codes)
        own.update({bare(kind): name for name, kind in named if "(" not in kind})
    short = {whole: name for name, whole in re.findall(r"(?m)^(\w+_code) = (\w+ \(.*\))$", text)}
    lines, module = [], (crate, f"proofs.tables.{table}")
    for name, kind in fields((ROOT / "crates" / crate / f"proofs/tables/{table}.antt").read_text(encoding="utf-8")):
        stated = re.match(r"Tried \{A = (.*?)\} ", kind)
        head = re.match(r"Tried \(*([^\s()]+)", kind)
        found = (stated[1], module) if stated else declared(module, head[1])
        present = re.search(rf"(?m)^      {re.escape(name)} = tried [^\n]*\n", text)
        if found and not re.search(r"\b[A-Z]\b", found[0]):
            made = code(*found, own)
            made = short.get(made, made)
            lines.append(f"      {name} = tried {made if made.startswith('(') else inner(made)} refl refl refl;\n")
        elif present:
            lines.append(present[0])
        else:
            raise SystemExit(f"{table}: the type of {name} is not found: write its entry")
    return with_codes(entries(text, re.search(rf"(?m)^pub (\S+) : {table}$", text)[1], lines), crate, lines)


# ---- what the records of capi hold


def computed_records(name):
    """Returns a file of theorems of capi in which each record of entries by computation has one for each field of its statement."""
    path = ROOT / f"crates/capi/proofs/theorems/{name}.antt"
    statement = path.parent.parent / f"statements/{name}.antt"
    records = re.split(r"(?m)^(?=pub record )", statement.read_text(encoding="utf-8"))[1:]
    records = {re.match(r"pub record (\w+)", record)[1]: fields(record) for record in records}

    def written(found):
        lines = []
        for field, kind in records[found[2]]:
            groups = re.match(r"((?:\([^()]* : [^()]*\) ?)*)→ ", kind)
            names = " ".join(re.findall(r"\(([^():]*) : ", groups[1])) if groups else ""
            lines.append(f"      {field} = {f'λ {names}. ' if names else ''}refl;\n")
        return found[1] + "".join(lines) + found[3]

    head = r"(?m)(^(?:pub )?\S+ : (?:[^\n]* → )?(\w+)\b[^\n→]*\n(?:unfolding [^\n]*\n)?[^\n]* =\n    record \{\n)"
    return path, re.sub(head + r"(?:      \S+ = (?:λ [^\n.]*\. )?refl;\n)+(    \}\n)", written, path.read_text(encoding="utf-8"))


def crates():
    """Returns masks, and the crates above it whose calls are exported."""
    return [crate for crate in unfolded.used()["capi"] if crate == "masks" or "masks" in unfolded.used()[crate]]


def main():
    complaints = []

    def settled(path, text):
        if path.read_text(encoding="utf-8") == text:
            return
        if "--write" in sys.argv:
            path.write_text(text, encoding="utf-8")
        else:
            complaints.append(f"{path.relative_to(ROOT)}: not what its statement or table gives: run tests/proof_rows.py --write")

    settled(*refusals())
    settled(*witnesses())
    settled(export_proofs.THEOREM, export_proofs.entries(fields)[0])
    for name in ("AnswerPlain", "RecordPlain", "StepPlain"):
        settled(*computed_records(name))
    for crate in crates():
        for path in sorted((ROOT / "crates" / crate / "proofs/computed").glob("Wrong*.antt")):
            for table in re.findall(r"(?m)^pub \S+ : (Wrong\w+)$", path.read_text(encoding="utf-8")):
                settled(path, answers(crate, path, table))
    print("\n".join(complaints + [f"{len(complaints)} complaints of proofs that have a form"]))
    return 1 if complaints else 0


if __name__ == "__main__":
    sys.exit(main())
