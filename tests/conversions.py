"""Checks that the contract of each export returns its answer by a conversion of capi whose meaning is stated field by field.

    python3 tests/conversions.py

A contract says `result ≡ as_flag (..)`: what it promises is what `as_flag` is. So, from the sources of crates/capi:

- An export that returns a record has one clause `result ≡ C ..`, where C is a definition of specs/ that returns that record, and `as_..`
  if the export may refuse. An export that returns only a refusal's number has `result ≡ (..).refusal`.
- Each conversion that a contract names, in and out, is in proofs/statements/*Plain.antt: if it returns a record, each field of the record,
  `(C ..).FIELD ≡`; if it takes an answer, each field of an accepted one and of a refused one. What is stated there is proved in
  proofs/theorems/, which the prover checks; each record of statements must be a field of the file's last one, the theorem.
- Each of them is in proofs/tables/AnswerRows.antt, and each definition of specs/ has wrong ones in tests/wrong/capi.txt.

At the end it damages what it has read, once for each of these, and fails if it then finds nothing."""
import re
import sys

from calls_page import NAME, promised
from exports import CAPI, ROOT, exports, records

SPECS = ("Answers", "Records", "Window")
PLAIN = ("AnswerPlain", "RecordPlain", "StepPlain")
CASES = {"an accepted answer": r"\((?:given|Ok)\b", "a refused answer": r"\((?:refused|Err)\b"}


def without_comments(path):
    return re.sub(r"--[^\n]*", "", path.read_text(encoding="utf-8"))


def joined(text):
    """Returns a text in which what a declaration continues on further lines is on its first."""
    return re.sub(r"\n {4,}", " ", text)


def spelled(text):
    """Returns the statements on steps with the fields of `Steps` written out for each conversion of which the last record states it."""
    fields = re.search(r"(?ms)^pub record Steps .*?where\n(.*?)(?=\n\n)", text)[1]
    names = re.findall(r"Steps [^()]* \((as_\w+ [^()]*)\)", text)
    return "\n".join([*(fields.replace("(to (", f"({name} (") + "\n" for name in names), text])


class Sources:
    """What is read: texts by name, and for each export its result's type, the numbers by which it refuses, and its clauses."""

    def __init__(self):
        self.specs = "\n".join(without_comments(CAPI / f"specs/{name}.antt") for name in SPECS)
        self.plain = {name: joined(without_comments(CAPI / f"proofs/statements/{name}.antt")) for name in PLAIN}
        self.plain["StepPlain"] = spelled(self.plain["StepPlain"])
        self.rows = without_comments(CAPI / "proofs/tables/AnswerRows.antt")
        self.wrong = (ROOT / "tests/wrong/capi.txt").read_text(encoding="utf-8")
        self.exports = {e.name: (e.result, e.numbers, list(promised(e.contract))) for e in exports()}
        structs = r"(?s)^pub struct (\w+)(?:<[^>]*>)? \{(.*?)^\}"
        self.fields = {name: [field for field, _ in fields] for name, (_, fields) in records().items()}
        for path in ROOT.glob("crates/*/src/**/*.rt"):
            for name, body in re.findall(structs, path.read_text(encoding="utf-8"), re.M):
                self.fields.setdefault(name, re.findall(r"(?m)^    pub (\w+):", body))


def definitions(specs):
    """Returns the definitions of specs/ by name: what each takes and returns."""
    found = {}
    for name, kind in re.findall(rf"(?m)^(?:unfoldable |abbrev )?pub ({NAME}) : (.*)$", specs):
        found[name] = [part.strip() for part in kind.split("→")]
    return found


def unconverted(name, sources, known):
    """Yields what is wrong with the clause on an export's result."""
    result, numbers, clauses = sources.exports[name]
    mine = [clause.partition("≡")[2].strip() for clause in clauses if re.match(r"result\s*≡", clause)]
    head = re.match(rf"({NAME})\b", mine[0]) if len(mine) == 1 else None
    if result not in sources.fields:
        if numbers and not (len(mine) == 1 and mine[0].endswith(").refusal")):
            yield f"{name} may refuse, and its contract does not say `result ≡ (..).refusal`"
    elif not head or known.get(head[1], [""])[-1] != result:
        yield f"{name} has no clause `result ≡ C ..` where C is a definition of capi/specs that returns {result}"
    elif numbers is not None and not head[1].startswith("as_"):
        yield f"{name} may refuse, and {head[1]} takes no answer"


def unstated(name, kinds, sources):
    """Yields what the statements leave out of a conversion."""
    plain = "\n".join(sources.plain.values())
    if not re.search(rf"[( ]{name}\b[^\n]* ≡ ", plain):
        yield f"no statement names {name}"
        return
    # the answer of a window of minutes is a record itself, with the number and the window
    cases = CASES if name != "as_window" and any(kind.startswith(("Answer ", "Result ")) for kind in kinds) else {"any": ""}
    for field in sources.fields.get(kinds[-1], ()):
        for case, shape in cases.items():
            if not re.search(rf"\({name}\b[^\n≡]*{shape}[^\n≡]*\)\.{field} ≡ ", plain):
                yield f"field {field} of {name} is not stated of {case}"


def complaints(sources):
    """Yields what is wrong."""
    known = definitions(sources.specs)
    cited = {}
    for name, (_, _, clauses) in sources.exports.items():
        yield from unconverted(name, sources, known)
        cited.update((word, known[word]) for word in re.findall(NAME, " ".join(clauses)) if word in known)
    for name, kinds in cited.items():
        yield from unstated(name, kinds, sources)
        if not re.search(rf"[( ]{name} ", sources.rows.replace("use ", "")):
            yield f"tables/AnswerRows.antt has no row of {name}"
    for file, text in sources.plain.items():
        named = re.findall(rf"(?m)^pub record ({NAME})", text)
        last = text[text.rindex("pub record") :]
        left = [name for name in named[:-1] if not re.search(rf"\b{name}\b", last)]
        yield from (f"statements/{file}.antt: {name} is no field of {named[-1]}" for name in left)
    entries = set(re.findall(r"(?m)^definition: (\S+)", sources.wrong))
    yield from (f"tests/wrong/capi.txt has no wrong {name}" for name in known if name not in entries)


def damaged():
    """Yields what is damaged, with the damaged sources."""
    for name, clause in (
        ("pw_may_reassign", "result.refusal ≡ 0"),
        ("pw_slice", "result ≡ mask_answer 0 (mask_in mask)"),
        ("pw_activity_counts", "result ≡ 0"),
    ):
        sources = Sources()
        result, numbers, _ = sources.exports[name]
        sources.exports[name] = result, numbers, [clause]
        yield f"the contract of {name} as `{clause}`", sources
    for file, line in (
        ("AnswerPlain", r"  pub refused-refusal : [^\n]*as_flag[^\n]*\n"),
        ("AnswerPlain", r"  pub given-value : [^\n]*as_flag[^\n]*\n"),
        ("AnswerPlain", r"  pub flag : [^\n]*\n"),
        ("AnswerPlain", r"  pub refusal : [^\n]*as_window[^\n]*\n"),
        ("StepPlain", r"  pub \w+-place : [^\n]*as_taken place \(given[^\n]*\n"),
        ("RecordPlain", r"  pub serial : [^\n]*mask_in[^\n]*\n"),
        ("RecordPlain", r"  pub \w+ : [^\n]*optional_in (?:true|false)[^\n]*\n"),
    ):
        sources = Sources()
        sources.plain[file], times = re.subn(line, "", sources.plain[file])
        yield f"statements/{file}.antt without `{line}`" if times else f"{file}: there is no such line: {line}", sources if times else None
    sources = Sources()
    sources.rows = re.sub(r"\bas_offer \(", "as_next (", sources.rows)
    yield "the rows without `as_offer`", sources
    sources = Sources()
    sources.wrong = sources.wrong.replace("definition: as_spans\n", "definition: as_split\n")
    yield "tests/wrong/capi.txt without `as_spans`", sources


def main():
    sources = Sources()
    found = list(complaints(sources))
    tried = 0
    for what, copy in damaged() if not found else ():
        tried += 1
        if copy is None or not list(complaints(copy)):
            found.append(f"nothing is found in a damaged copy: {what}")
    print("\n".join(found + [f"{len(sources.exports)} exports, {tried} damaged copies, {len(found)} complaints of conversions"]))
    return 1 if found else 0


if __name__ == "__main__":
    sys.exit(main())
