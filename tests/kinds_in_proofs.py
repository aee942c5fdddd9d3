"""The kinds of place of a public call in its crate: its definition, its proofs, statements, tables and wrong definitions. Each function
returns the files in which it finds the call."""
import re

import proof_rows
from call_kinds import CALLS, FREE, MAY, OTHERS, citing, counted, forms, is_call, kind, makes_mask, may_fail, naming, proving, refusing_call
from call_kinds import MASKED, SERIALS, reached, rows_of, saying, several_numbers, specs
from public_calls import IDENT, files, makes_only_a_record, read, uses, words_in


@kind("definition", "the definition, in specs/", applies=lambda call: is_call(call) or call.definitions)
def definition(call):
    known = specs(call.crate)
    return sorted({known[name][0] for name in call.definitions if name in known})


@kind("contract", "the call with its contract, in src/")
def contract(call):
    return [call.path] if call.clauses else []


@kind("lists", "the lists of modules, if its module has no other call", FREE, written=True)
def lists(call):
    if [other for other in CALLS + OTHERS if other.path == call.path] != [call]:
        return []
    spec = "".join(part.capitalize() for part in call.module.split("_"))
    found = saying(f"crates/{call.crate}/src/**/*.rt", rf"(?m)^(?:pub )?mod {call.module};")
    found += saying(f"crates/{call.crate}/specs/Lib.antt", rf"mod {spec}\b")
    return found + files(f"crates/{call.crate}/proofs/**/{call.module}.antt")


@kind("proof", "the proofs of the call and of its checks, and laws", FREE)
def proof(call):
    owner = rf"(?:{call.owner}[A-Z]?\w*/)?" if call.owner else ""
    own = rf"crates/{call.crate}/proofs/(?:\w+/)+{owner}(?:check_)?{call.short}/\w+\.antt"
    alone = lists(call) and rf"|crates/{call.crate}/proofs/(?:\w+/)?{call.module}/\w+\.antt"
    return [path for path in files(f"crates/{call.crate}/proofs/**/*.antt") if re.fullmatch(own + (alone or ""), path)]


@kind("checks", "the function that makes its checks", applies=refusing_call)
def checks(call):
    """Of a crate whose sources make no checks, those of the calls of other crates."""
    known, waiting, seen = specs(call.crate), list(call.definitions), set()
    while waiting:
        name = waiting.pop()
        if name in known and name not in seen:
            seen.add(name)
            waiting += IDENT.findall(known[name][1])
    made = "|".join(name for name in seen if name.endswith("_checks"))
    if not made or not saying(f"crates/{call.crate}/src/**/*.rt", r"first_failed \("):
        return [call.path]
    found = saying(f"crates/{call.crate}/src/**/*.rt", rf"first_failed \([^}}]*\b(?:{made})\b")
    return [call.path] if call.path in found else found


@kind("numbers", "its numbers, and the statement on refusals", applies=may_fail)
def numbers(call):
    stated = citing(call, "statements/Refusals.antt") or saying(f"crates/{call.crate}/proofs/statements/Refusals.antt", rf"`{call.short}`")
    return stated if call.numbers else []


@kind("refusals", "the theorem on refusals", applies=refusing_call, written=lambda call: call.crate == "masks")
def refusals(call):
    return proving(call, "Refusals", "Refusals")


@kind("witnesses", "an input for each of its numbers", applies=refusing_call)
def witnesses(call):
    return rows_of(call, "tables/Witnesses.antt")


@kind("wrong answers", "two wrong answers", applies=is_call)
def wrong_answers(call):
    return rows_of(call, "tables/Wrong*.antt")


@kind("edges", "both sides of its limits", applies=refusing_call)
def edges(call):
    return citing(call, "tables/EdgeRows.antt")


@kind("order", "each two of its numbers", applies=several_numbers)
def order(call):
    """7 of a call meets neither 6 nor 12: it never comes out (`never_seven`), and of a row it is made only where these hold."""
    found, rows = [], set()
    for crate in [call.crate, *uses()[0][call.crate]]:
        for path in files(f"crates/{crate}/proofs/tables/OrderRows.antt"):
            rows |= {frozenset(pair) for pair in re.findall(r"both (\d+) (\d+) ", read(path))}
            found.append(path)
    wanted = {frozenset((a, b)) for a in call.numbers for b in call.numbers if a != b} - {frozenset("67"), frozenset(("7", "12"))}
    return [path for path in found if call.definitions & reached(path, call.crate)] or found[:1] if wanted <= rows else []


def computed(call):
    """Those files of computed rows in which its shut definitions are unfolded; for a call that has none, those of its tables."""
    known = specs(call.crate)
    if any(known[name][1].startswith("unfoldable ") for name in call.definitions if name in known):
        return naming(call, "computed/*.antt")
    tables = {path.split("/")[-1] for find in (witnesses, wrong_answers, edges) for path in find(call)}
    return [path for path in files(f"crates/{call.crate}/proofs/computed/*.antt") if path.split("/")[-1] in tables | {"WrongAnswers.antt"}]


@kind("computed", "its rows of witnesses and of wrong answers, computed", applies=is_call,
      written=lambda call: call.crate in proof_rows.crates())
def rows(call):
    """Each such row is an entry of a record or a clause there; other tables are computed at once. Of a crate above masks the script writes
    the rows of wrong answers, and the others there are one clause for all its calls."""
    return [path for path in computed(call) if re.search(r"/(?:Wrong\w*|Witnesses)\.antt$", path)]


@kind("unfolding", "its definitions, unfolded for tables that are computed at once", FREE, applies=is_call, written=True)
def unfolding(call):
    return [path for path in computed(call) if path not in rows(call)]


@kind("counts", "the statement on counts", applies=counted)
def counts(call):
    return citing(call, "statements/CountsUnseen.antt")


@kind("counts proved", "the theorem on counts", applies=counted)
def counts_proved(call):
    return proving(call, "CountsUnseen", "CountsUnseen", "Uncounted")


@kind("count", "whether the mask that it makes has a known count", applies=makes_mask)
def count(call):
    return citing(call, "statements/*Plain.antt", "unset")


@kind("serial", "the serial of the record that it makes or changes",
      applies=lambda call: call.gives(SERIALS) and not makes_only_a_record(call))
def serial(call):
    return citing(call, "statements/*Plain.antt", "serial")


@kind("shape", "what its answer's shape means, for a shape that no other call has", applies=lambda call: may_fail(call) and call.readers)
def shape(call):
    plain = [path for crate in [call.crate, *uses()[0][call.crate]] for path in files(f"crates/{crate}/proofs/statements/AnswerPlain.antt")]
    named = [path for path in plain if call.readers & words_in(path)]
    return named if call.readers <= set().union(*map(words_in, plain)) else []


@kind("theorem", "a theorem on what it means, in plain words", MAY, applies=is_call)
def theorem(call):
    others = ("/Refusals.antt", "/Uncounted.antt", "/CountsUnseen.antt")
    return [path for path in naming(call, "theorems/*.antt") if not path.endswith(others)]


@kind("theorem's list", "the list of theorems, if a theorem is only about it", FREE, applies=is_call, written=True)
def theorem_list(call):
    others = set().union(*(other.heads for other in CALLS if other not in forms(call)))
    own = [path for path in theorem(call) if not others & words_in(path)]
    return files(f"crates/{call.crate}/proofs/theorems.antt") if own else []


@kind("histories", "a row of histories", applies=lambda call: makes_mask(call) and call.takes(MASKED))
def histories(call):
    return saying("crates/histories/src/**/*.rt", rf"[.\s]{call.short}\(")


@kind("wrong definitions", "wrong definitions", applies=lambda call: is_call(call) or call.definitions)
def wrong_definitions(call):
    path = f"tests/wrong/{call.crate}.txt"
    return [path] if call.definitions & set(re.findall(r"(?m)^definition: (\S+)", read(path))) else []


@kind("edit", "an edit that is refused", MAY, applies=is_call)
def edit(call):
    named = rf"\b(?:{'|'.join(map(re.escape, [call.short, *call.definitions]))})\b"
    found = saying(f"crates/{call.crate}/must-fail/*.edit", named) + saying(f"tests/refused/{call.crate}/*.edit", named)
    place = rf"(?m)^(?:at|file): (?:src/(?:\w+/)?{call.module}\.rt|proofs/(?:\w+/)?{call.module}/)"
    return found or saying(f"crates/{call.crate}/must-fail/*.edit", place) + saying(f"tests/refused/{call.crate}/*.edit", place)
