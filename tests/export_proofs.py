"""Makes the entries of capi's theorem `Refusals` that follow by form. Used by tests/proof_rows.py.

Such an entry is of an export that returns an answer, or in addition leaves a lent output unwritten, and whose call's equation in masks is
`checked (x_checks ..) ..`: the numbers are those of the field of masks' `Refusals` on this list of checks, with the masks and bytes of the
export in the place of the field's variables. The entries of other exports (a cursor's step, an append, a record that is returned, the calls
of dispatch and activity) are written by hand, and kept."""
import re

import unfolded
from exports import ROOT

STATEMENT = ROOT / "crates/capi/proofs/statements/Refusals.antt"
THEOREM = ROOT / "crates/capi/proofs/theorems/Refusals.antt"
WIDTH = 140
BINDERS = r"((?:\([^()]* : [^()]*\) ?)+)→ "


def parsed(text):
    """Returns a term as nested lists: an application of names and of terms in parentheses; none for any other term."""
    stack = [[]]
    for token in re.findall(r"[()]|[^\s()]+", text):
        if token == "(":
            stack.append([])
        elif token == ")":
            inner = stack.pop()
            stack[-1].append(inner if len(inner) > 1 else inner[0])
        elif re.fullmatch(r"\d+|[^\W\d][\w'-]*", token):
            stack[-1].append(token)
        else:
            return None
    return stack[0] if len(stack[0]) > 1 else stack[0][0]


def shown(term, inside=False):
    if isinstance(term, str):
        return term
    text = " ".join(shown(part, True) for part in term)
    return f"({text})" if inside else text


def filled(term, values):
    """Returns a term with values in the place of variables, and a mask that may be absent as `Some` of its mask or `None`."""
    if isinstance(term, str):
        return values.get(term, term)
    term = [filled(part, values) for part in term]
    if term[:2] == ["optional_in", "true"]:
        return ["Some", ["mask_in", term[2]]]
    return "None" if term[:2] == ["optional_in", "false"] else term


def fits(pattern, term, values, variables):
    """Whether a term is a pattern with values for its variables, which it adds."""
    if isinstance(pattern, str):
        if pattern in variables:
            return values.setdefault(pattern, term) == term
        return pattern == term
    same = isinstance(term, list) and len(term) == len(pattern)
    return same and all(fits(one, other, values, variables) for one, other in zip(pattern, term))


def names(binders):
    return [name for group in re.findall(r"\(([^():]*) : ", binders) for name in group.split()]


def equations():
    """Returns for each call of masks the variables of its equation and its list of checks."""
    found = {}
    for path in (ROOT / "crates/masks/specs/equations").glob("*.antt"):
        text = re.sub(r"--[^\n]*", "", path.read_text(encoding="utf-8"))
        shape = r"(?m)^(\w+) ([\w ]+) =\s+(?:checked|each_of) \(((?:[^()]|\([^()]*\))*)\)"
        for name, variables, checks in re.findall(shape, text):
            if parsed(checks):
                found[name] = variables.split(), parsed(checks)
    return found


def numbers(fields):
    """Returns the fields of masks' `Refusals` on a list of checks: each name, its variables and the list."""
    for name, kind in fields:
        found = re.fullmatch(BINDERS + r"FailsBy (?:\(may_give \S+\)|\[\]) \((.*)\)", kind)
        if found and parsed(found[2]):
            yield name, names(found[1]), parsed(found[2])


def argument(kind):
    """Returns how an export of a kind keeps the number, its call, and its lent output; none for another form."""
    combined = re.fullmatch(r"Combines \S.*?\[\]\) (\w+) (\w+) (\w+) (\w+) (\w+) (\w+)", kind)
    if combined:
        op, a, a_bytes, b, b_bytes, out = combined.groups()
        return "as_mask", ["pair_of", op, ["mask_in", a], a_bytes, ["mask_in", b], b_bytes, out], out
    found = re.fullmatch(r"(Gives|GivesBack) (?:\([^()]*\)|\[\]) \((as_\w+(?: \w+_out)?) \((.*)\)\)\.refusal(?: (\w+) \(.*\))?", kind)
    if found and (found[1] == "GivesBack") == bool(found[4]):
        return found[2], parsed(found[3]), found[4]
    return None


def entry(field, kind, laws, known, stated):
    """Returns the entry of a field; none if it does not follow by form."""
    binders = re.match(BINDERS, kind)
    form = binders and argument(kind[binders.end() :])
    if not form or not isinstance(form[1], list) or form[1][0] not in known:
        return None
    law, (head, *given), out = form
    variables, checks = known[head]
    checks = filled(checks, dict(zip(variables, (filled(term, {}) for term in given))))
    for name, own, pattern in stated:
        values = {}
        if fits(pattern, checks, values, set(own)):
            break
    else:
        return None
    encoding, *outs = law.split()
    kept = f"({laws[encoding]} {''.join(f'{one} ' for one in outs)}_)"
    numbered = f"((masks.refusals).{name} {' '.join(shown(values[one], True) for one in own)})"
    start = f"      {field} = λ {' '.join(names(binders[1]))}."
    if out:
        proof = [f"gives-unwritten _ _ refl _ _ {kept} {out} _", f"(refuses-unwritten _ _ {numbered});"]
    else:
        proof = [f"gives _ _ refl _ _ {kept}", f"(refuses-by _ {numbered});"]
    below = "\n          "
    for layout in (" ".join([start, *proof]), start + below + " ".join(proof), below.join([start, *proof])):
        if max(map(len, layout.split("\n"))) <= WIDTH:
            return layout + "\n"
    return layout + "\n"


def unfolding(text, kinds, known):
    """Returns the theorem with the equations of these fields unfolded, where they are shut."""
    module = ("capi", "proofs.statements.Refusals")
    block = re.search(r"pub refusals : Refusals\nunfolding\n((?:    [^\n]*\n)+)", text)[1]
    for name in dict.fromkeys(name for kind in kinds for name in unfolded.IDENT.findall(kind) if name in known):
        place = unfolded.where(module, name)
        if place[1] in unfolded.file(*place[0]).shut and name not in block.split():
            longer = block.rstrip("\n") + f" {name}\n"
            longer = longer if len(longer.split("\n")[-2]) <= WIDTH else block + f"    {name}\n"
            text = unfolded.with_import(text.replace(block, longer, 1), place[0], name)
            block = longer
    return text


def entries(fields):
    """Returns the theorem with the entries that follow by form, and the exports of which all do; `fields` reads those of a statement.

    The fields of an export are its own and those after it whose names are not of exports."""
    text = THEOREM.read_text(encoding="utf-8")
    head, body = re.split(r"(?<=\nrefusals =\n    record \{\n)", text)
    body, end = body[: body.rindex("    }")], body[body.rindex("    }") :]
    present = {part.split(" ")[0]: part for part in re.split(r"(?m)^      (?=\S)", body)[1:]}
    laws = {encoding: law for law, encoding in re.findall(r"(?m)^(of[-_]\S+) : .*\((as_\w+)(?: out)? a\)\.refusal ≡", text)}
    known = equations()
    stated = list(numbers(fields((ROOT / "crates/masks/proofs/statements/Refusals.antt").read_text(encoding="utf-8"))))
    export, exports, lines, kinds = "", {}, [], []
    for field, kind in fields(STATEMENT.read_text(encoding="utf-8")):
        line = entry(field, kind, laws, known, stated)
        export = field if field.startswith("pw_") else export
        exports[export] = exports.get(export, True) and bool(line)
        kinds += [kind] if line else []
        if not line and field not in present:
            raise SystemExit(f"crates/capi/proofs/theorems/Refusals.antt: the entry of {field} does not follow by form: write it")
        lines.append(line or "      " + present[field])
    return unfolding(head, kinds, known) + "".join(lines) + end, {export for export, by_form in exports.items() if by_form}
