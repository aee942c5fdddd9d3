#!/usr/bin/env python3
"""Checks that the contract of each public function of the crates CRATES has the clauses that its signature asks for.

    python3 tests/clauses.py            prints what is missing, and fails if anything is
    python3 tests/clauses.py --test     takes each clause out, one by one, or makes it wrong, and checks that this is seen

A contract has named clauses, with the same names everywhere. They fix every output on every input together, so none may be missing, and
the prover does not see that one is: without `unchanged` a call is still proved. What a signature asks for:

- `Result<T, E>`: `refused`, the number of the first failed check; if T is not `()`, a clause that says the value, or one for each part of
  it. It equals something: the value itself, a part of it, or what READERS make of it.
- An argument lent `&mut`: the value that it has if the call is accepted, under `OnOk` or `IfOk`; of a `Result` also that it is unchanged
  after a refusal, under `OnErr`; two such arguments in one clause `unchanged`.
- An error that holds what was passed: `state`, that it is returned unchanged, under `IfErr`.
- A part of lent bytes, `&[u8]`: which bytes and where they lie, `part` and `place`, if no check fails, and `refused_part` and
  `refused_place` if one does.
- Any other result: a clause about it.

`refused` says the number on every input: it has the premise that a length is not 0 only where a clause `empty` says that 0 is accepted. No
other clause of a `Result` has a premise. A clause that is none of RULES says a value, and its name is one of VALUES; a type of NAMED has
the name that is there. `bound` says something in addition, and is not asked for."""
import pathlib
import re
import sys

from calls_page import head_of

ROOT = pathlib.Path(__file__).resolve().parent.parent
CRATES = ("masks", "grids", "run_ends", "dispatch")
# The clauses that say no value, each with what it may be stated by.
RULES = {
    "refused": r"(?:length ≢ 0 → )?(?:failure_of|failure_back|offer_failure) result ≡ (?:first_failed|earlier_of|cond holds 0) .+",
    "empty": r"length ≡ 0 → failure_of result ≡ 0",
    "bytes": r"OnOk result \(\w+\.new ≡ .+\)",
    "unchanged": r"OnErr result \((\w+)\.new ≡ \1\.old\)|OnErr result \(\((\w+)\.new ≡ \2\.old\) × \((\w+)\.new ≡ \3\.old\)\)",
    "state": r"IfErr result \(λ e\. e\.(?:state|cursor) ≡ (?:self|cursor|mask)\)|OnErr result \((\w+)\.new ≡ \1\.old\)",
}
# The clauses that say a value, by what it is.
VALUES = ("appended", "bound", "counts", "cursor", "edges", "ends", "flag", "found", "mask", "number", "offering", "part")
VALUES += ("position", "positions", "spans", "split", "step", "word", "zeros")
# What a value is read by, if a clause says neither it nor a part of it.
READERS = ("filling", "step_of")
# The name of the clause on a value of these types.
NAMED = {"Bitmap": "mask", "Option<Bitmap>": "mask", "BitmapBuilder": "appended", "bool": "flag"}
# The clauses on a part of lent bytes, by the number of the first failed check.
PART = {"part": "≡ 0 →", "place": "≡ 0 →", "refused_part": "≢ 0 →", "refused_place": "≢ 0 →"}
# Errors that are only a number; every other error holds what was passed.
NUMBERS = ("Refusal",)


class Function:
    """A public function: its name, its arguments, its result and its clauses by name; a clause with no name is `result`."""

    def __init__(self, name, head):
        self.name = name
        signature = re.split(r"\b(?:requires|ensures)\b", head)[0]
        inner = signature[signature.index("(") :]
        self.arguments, self.result = split_signature(inner)
        self.clauses = {}
        for clause in re.finditer(r"\bensures(?:\s+(\w+))?\s*\{", head):
            name = clause[1] or "result"
            if name in self.clauses:
                self.clauses[name + " again"] = ""
            self.clauses[name] = " ".join(braced(head, clause.end()).split())


def braced(text, at):
    """Returns the text from `at` to the brace that closes the one before it."""
    start, depth = at, 1
    while depth:
        depth += {"{": 1, "}": -1}.get(text[at], 0)
        at += 1
    return text[start : at - 1]


def split_signature(text):
    """Returns the arguments of a signature, each as text, and its result."""
    depth, at, parts = 0, 0, [""]
    for at, letter in enumerate(text):
        depth += {"(": 1, "[": 1, "<": 1, ")": -1, "]": -1}.get(letter, 0)
        depth -= letter == ">" and text[at - 1] != "-"
        if depth == 0:
            break
        if letter == "," and depth == 1:
            parts.append("")
        elif (letter, depth) != ("(", 1):
            parts[-1] += letter
    arguments = [" ".join(part.split()) for part in parts if part.strip()]
    result = re.match(r"\s*->\s*(.*?)\s*(?:where\b.*)?$", text[at + 1 :], re.S)
    return arguments, " ".join(result[1].split()) if result else "()"


def functions(text):
    """Yields the public functions of a source, methods with their type's name."""
    text = re.sub(r"//[^\n]*", "", text)
    owner = ""
    for match in re.finditer(r"(?m)^impl(?:<[^>]*>)? (\w+)(?:<[^>]*>)? \{$|^(\})|\bpub fn (\w+)", text):
        if match[1] or match[2]:
            owner = match[1] + "::" if match[1] else ""
        else:
            yield Function(owner + match[3], head_of(text, match.start(3)))


def lent_names(function):
    """Returns the names of the arguments that are lent `&mut`."""
    found = []
    for argument in function.arguments:
        if re.match(r"&(?:'\w+ )?mut self\b", argument):
            found.append("self")
        elif re.match(r"(?:mut )?\w+ ?: ?&(?:'\w+ )?mut\b", argument):
            found.append(re.match(r"(?:mut )?(\w+)", argument)[1])
    return found


def missing(function):
    """Yields what the contract of a function lacks."""
    clauses = function.clauses
    result = re.fullmatch(r"Result<(.*), (\w+)(<.*>)?>", function.result)
    lent = lent_names(function)
    if re.fullmatch(r"&(?:'\w+ )?\[u8\]", function.result):
        for name, premise in PART.items():
            if name not in clauses:
                yield f"no clause {name}"
            elif not re.match(rf"first_failed \(.*?\) {premise} result", clauses[name]):
                yield f"{name} has not the premise {premise}"
        return
    if not result:
        if not any(re.search(r"\bresult\b", text) for text in clauses.values()) and function.result != "()":
            yield "no clause about the result"
        for name in lent:
            if not any(re.search(rf"\b{name}\.new\b", text) for text in clauses.values()):
                yield f"no clause about what {name} becomes"
        return
    values = [name for name in clauses if name not in RULES]
    for name in [name for name in values if name not in VALUES]:
        yield f"a clause named {name}, which is no name of a clause"
    for name, text in clauses.items():
        if name in RULES and not re.fullmatch(RULES[name], text):
            yield f"{name} is not stated as it must be: {text}"
        if name not in ("refused", "empty") and "→" in text:
            yield f"{name} has a premise"
    wanted = NAMED.get(result[1])
    if wanted and not any(name in values for name in ([wanted] if isinstance(wanted, str) else wanted)):
        yield f"no clause named {wanted} for a {result[1]}"
    if "refused" not in clauses:
        yield "no clause refused"
    elif "→" in clauses["refused"] and "empty" not in clauses:
        yield "refused has a premise, and there is no clause empty"
    accepted = [text for name, text in clauses.items() if re.search(r"\b(?:OnOk|IfOk) result\b", text)]
    refused = [text for name, text in clauses.items() if re.search(r"\bOnErr result\b", text)]
    if result[1] != "()":
        yield from unsaid(result[1], [clauses[name] for name in values])
    for name in lent:
        if not any(re.search(rf"\b{name}\.new\b", text) for text in accepted):
            yield f"no clause says what {name} becomes"
        if not any(re.search(rf"\b{name}\.new ≡ {name}\.old", text) for text in refused):
            yield f"no clause says that {name} is unchanged after a refusal"
    if result[2] not in NUMBERS and "state" not in clauses:
        yield "no clause state"


def unsaid(kind, texts):
    """Yields what these clauses leave open of a value: all of it, or a part, if they say it by its parts."""
    shapes = [re.match(r"IfOk result \(λ (\w+)\. (.*) ≡ ", text) for text in texts]
    said = [(found[1], found[2]) for found in shapes if found]
    whole = [name for name, left in said if left == name or re.match(rf"(?:{'|'.join(READERS)}) {name}\b", left)]
    parts = {left.partition(".")[2] for name, left in said if left.startswith(f"{name}.")}
    if not whole and not parts:
        yield "no clause says the value"
    elif not whole:
        for part in fields(kind) - parts:
            yield f"no clause says the part {part} of the value"


def fields(kind):
    """Returns the names of the parts of a type: the numbers of a pair's sides, or a record's fields."""
    if kind.startswith("("):
        return {str(k) for k in range(len(split_signature(kind)[0]))}
    for _, text in sources(ROOT):
        found = re.search(rf"\bstruct {kind}\b[^{{;]*\{{(.*?)\}}", text, re.S)
        if found:
            return set(re.findall(r"(?m)^\s*pub (\w+):", found[1]))
    return {"of an unknown type"}


def sources(root):
    for crate in CRATES:
        for path in sorted((root / "crates" / crate / "src").rglob("*.rt")):
            yield path, path.read_text(encoding="utf-8")


def complaints(texts):
    """Returns a line for each thing that is missing, and the number of functions with a `Result`."""
    found, results = [], 0
    for path, text in texts:
        for function in functions(text):
            results += function.result.startswith("Result<")
            found += [f"{path.relative_to(ROOT)}: {function.name}: {what}" for what in missing(function)]
    return found, results


def wrong_sources(text):
    """Yields each clause of a public function that may refuse, with what stands in its place, and the source with that."""
    for match in re.finditer(r"\bpub fn \w+", text):
        head = head_of(text, match.start())
        if not re.search(r"-> (?:Result<|&)", head):
            continue
        for clause in re.finditer(r"\bensures(?:\s+(\w+))?\s*\{", head):
            start = match.start() + clause.start()
            end = match.start() + clause.end() + len(braced(head, clause.end())) + 1
            inside = " ".join(braced(head, clause.end()).split())
            for wrong in ["", *wrong_texts(clause[1], inside)]:
                new = f"ensures {clause[1] or ''} {{ {wrong} }}" if wrong else ""
                yield f"{match[0]} {clause[1]} as `{wrong}`", text[:start] + new + text[end:]


def wrong_texts(name, text):
    """Yields what a clause might say in its place and must not: a premise, another number, another state, less of what is written."""
    yield f"0 ≡ 0 → {text}"
    if name == "refused":
        yield re.sub(r" ≡ (?:first_failed|earlier_of|cond) .*", " ≡ 0", text)
    elif name == "state":
        yield "IfErr result (λ e. e.state ≡ e.state)"
    elif name in ("bytes", "unchanged"):
        yield re.sub(r"\((\w+)\.new ≡ .*\)", r"(length \1.new ≡ length \1.old)", text)
    if " × " in text:
        yield re.sub(r"\((\(.*?\)) × \(.*?\)\)", r"\1", text)
        yield re.sub(r"\(\(.*?\) × (\(.*?\))\)", r"\1", text)


def main():
    texts = list(sources(ROOT))
    found, results = complaints(texts)
    if "--test" in sys.argv:
        tried, unseen = 0, []
        for path, text in texts:
            for name, less in wrong_sources(text):
                tried += 1
                if not complaints([(path, less)])[0] and " bound as ``" not in name:
                    unseen.append(f"{path.relative_to(ROOT)}: {name}: this is not seen")
        print("\n".join(unseen + [f"{tried} clauses taken out or made wrong one by one, {len(unseen)} not seen"]))
        return 1 if unseen or not tried else 0
    print("\n".join(found + [f"{results} public functions that may refuse, {len(found)} complaints on their clauses"]))
    return 1 if found else 0


if __name__ == "__main__":
    sys.exit(main())
