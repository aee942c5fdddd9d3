"""Compares the steps of a history with the contracts of the calls that they stand for; fails if one is not stated by its call.

    python3 tests/histories_ties.py

The theorem on histories is about definitions: a step of histories/proofs/statements/History.antt applies one to the state (`try_new_of`,
`append_answer` and `append_bytes`, `freeze_of`, `into_opt_validity_of`, `freeze_bytes`). It is about the code if the contract of the call
has the same definition of the same arguments. Calls that make a mask from masks are tied to their rows by functions (rows.rt,
grid_rows.rt and run_end_rows.rt of histories/src/); this script is for the others: `try_new`, `freeze`, `into_opt_validity`, and for each
constructor of `Append` (masks/specs/equations/Appends.antt) the calls of APPENDS, whose arguments are those of the constructor in the same
order. A call is tied by

    itself      its `ensures` are the equations: its result read as an answer, and `buf.new`, with the definitions of the step
    its export  the `ensures` of pw_NAME in capi/src are these equations, and pw_NAME calls it; or
    clauses     of an append: `refused` has its row of `append_checks`, `appended` its row of `append_flags`, appended to the builder and
                buffer that were passed; `unchanged` and `state` are there. The definitions of the step are made of these two rows."""
import pathlib
import re
import sys

from calls_page import NAME, arguments, head_of, promised, source

ROOT = pathlib.Path(__file__).resolve().parent.parent
APPENDS = {
    "push_flag": ("push", "push_mut"),
    "extend_constant": ("extend_constant",),
    "push_word": ("push_word_with_len_unchecked",),
    "extend_slice": ("extend_from_slice",),
    "extend_repeated": ("extend_each_repeated_from_slice_unchecked",),
    "extend_bitmap": ("subslice_extend_from_bitmap",),
    "extend_gather": ("gather_extend_from_slice",),
    "extend_opt_gather": ("opt_gather_extend_from_slice",),
}
STEPS = {("waiting", "try_new"), ("builder", "append"), ("builder", "freeze"), ("builder", "into_opt_validity")}
STEP = re.compile(r"(?m)^step_(waiting|builder) (?:b buf )?\(?(\w+)([\w ]*)\)? = after_\w+ (.*)$")
# How a result is read as an answer, before the sign of equality.
READ = ("answer result", "answer_back result", "change_answer (failure_of result) self.new")


def definitions(*path):
    text = (ROOT / "crates").joinpath(*path).read_text(encoding="utf-8")
    return re.sub(r"--[^\n]*", "", text)


def terms(text):
    """Returns the terms of a row of arguments, each without the parentheses around it."""
    depth, found = 0, [""]
    for letter in text:
        depth -= letter == ")"
        if letter == " " and not depth:
            found.append("")
        elif depth or letter not in "()":
            found[-1] += letter
        depth += letter == "("
    return found


def steps():
    """Returns by the name of a call the variables of its step, the bytes and the answer; and the complaints."""
    found, seen = {}, set()
    for match in STEP.finditer(definitions("histories", "proofs", "statements", "History.antt")):
        found[match[2]] = match[3].split(), *terms(match[4])
        seen.add((match[1], match[2]))
    return found, [f"History.antt: a step of {call} in the state {state} is missing or new" for state, call in sorted(seen ^ STEPS)]


def rows(name):
    """Returns the rows of a table of Appends.antt: by constructor its variables and the right side."""
    text = definitions("masks", "specs", "equations", "Appends.antt")
    found = re.findall(rf"(?m)^{name} \((\w+)([\w ]*)\)(?: b buf)? = (.*)$", text)
    return {constructor: (variables.split(), right) for constructor, variables, right in found}


def constructors():
    data = definitions("masks", "specs", "equations", "Appends.antt").split("pub data Append ")[1].split("\n\n")[0]
    return re.findall(r"(?m)^  (\w+) :", data)


def functions(crate):
    """Returns by name the head and the body of each public function of a crate."""
    found = {}
    for path in sorted((ROOT / "crates" / crate / "src").rglob("*.rt")):
        text = source(path)
        for match in re.finditer(r"\bpub (?:extern \"C\" )?fn (\w+)", text):
            head = head_of(text, match.start(1))
            found[match[1]] = head, text[match.start(1) + len(head) :].split("\n}")[0]
    return found


def put(term, values):
    """Returns a term with its variables replaced."""
    return re.sub(NAME, lambda found: values.get(found[0], found[0]), term)


def enclosed(text):
    return f"({text})" if " " in text else text


def clauses(head):
    return [re.sub("[«»]", "", clause) for clause in promised(head)]


def passed(head):
    """Returns the arguments of a call as its clauses name them, without the builder's own and the buffer."""
    names = [name for name in arguments(head) if name not in ("self", "buf")]
    return [name + ".now" if re.search(rf"\b{name}: &\[", head) else name for name in names]


class Call:
    """A call, its step, and for an append its constructor."""

    def __init__(self, name, step, constructor, made, exported):
        self.name, self.constructor = name, constructor
        self.variables, self.bytes, self.answer = step
        self.head = made.get(name, ("()", ""))[0]
        self.export, self.body = exported.get("pw_" + name, ("()", ""))
        self.own = "self.old" if "&mut self" in self.head else "self"

    def values(self, builder, args):
        """Returns what the step's variables stand for."""
        values = {"b": builder, "buf": "buf.old"}
        if self.constructor:
            return values | {"a": f"({' '.join([self.constructor] + args)})"}
        return values | dict(zip(self.variables, args))

    def equations(self, head, builder, args, read):
        """Returns whether a head has the equations of the step; a buffer that the call does not write has none."""
        values = self.values(builder, args)
        answers = [form.format(put(self.answer, values)) for form in read]
        said = clauses(head)
        written = self.bytes in self.variables or f"buf.new ≡ {put(self.bytes, values)}" in said
        return written and any(re.fullmatch(answer, clause) for answer in map(self.pattern, answers) for clause in said)

    @staticmethod
    def pattern(text):
        return re.escape(text).replace("ANY", r"\w+")

    def by_itself(self):
        return self.equations(self.head, self.own, passed(self.head), [f"{read} ≡ {{}}" for read in READ])

    def by_export(self):
        numbers = set(re.findall(r"\b(\w+): (?:usize|u64|u32)\b", self.export))
        builder = "(serial_builder_in length word ones serial)" if "serial" in numbers else "(builder_in length word ones)"
        taken = {"length", "word", "ones", "serial"} if "builder_in" in self.body else set()
        args = [name for name in passed(self.export) if name not in taken]
        args = [f"({name}_in {name})" if name == "mask" else name for name in args]
        called = re.search(rf"(?:\.|::)\s*{self.name}\(", self.body)
        return bool(called) and self.equations(self.export, builder, args, ["result ≡ as_ANY ({})"])

    def by_clauses(self):
        if not self.constructor:
            return False
        (names, checks), (also, flags) = rows("append_checks")[self.constructor], rows("append_flags")[self.constructor]
        values = {"b": self.own, "buf": "buf.old"}
        checks = put(checks, values | dict(zip(names, passed(self.head))))
        flags = put(flags, dict(zip(also, passed(self.head))))
        refused = re.escape(f" ≡ first_failed ({checks})")
        grown = re.escape(f" buf.new ≡ appended (filling {self.own} buf.old) {enclosed(flags)}")
        named = set(re.findall(r"\bensures (\w+) \{", self.head))
        return (
            {"refused", "appended", "unchanged", "state"} <= named
            and any(re.search(refused + "$", clause) for clause in clauses(self.head))
            and any(re.search(grown + r"\)$", clause) for clause in clauses(self.head))
        )

    def tie(self):
        ways = {"itself": self.by_itself, "its export": self.by_export, "clauses": self.by_clauses}
        return next((name for name, way in ways.items() if way()), None)


def main():
    found, complaints = steps()
    made, exported = functions("masks"), functions("capi")
    if sorted(constructors()) != sorted(APPENDS):
        complaints.append(f"Appends.antt: the constructors of Append are {' '.join(constructors())}, not those of this script")
    calls = [Call(name, step, None, made, exported) for name, step in found.items() if name != "append"]
    for constructor, names in APPENDS.items():
        calls += [Call(name, found["append"], constructor, made, exported) for name in names if "append" in found]
    ties = {call.name: call.tie() for call in calls}
    for name, tie in ties.items():
        if tie:
            print(f"{name}: tied to its step by {tie}")
        else:
            complaints.append(f"{name}: neither its contract nor that of its export states what a step of a history has it return")
    print("\n".join(complaints + [f"{len(ties)} calls, {len(complaints)} complaints"]))
    return 1 if complaints else 0


if __name__ == "__main__":
    sys.exit(main())
