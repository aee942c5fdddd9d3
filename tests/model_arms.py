"""Compares compare/cases/src/asked.rs with the functions of compare/model and with docs/REQUESTS.md, and writes it.

    python3 tests/model_arms.py            prints whether it differs, and fails if it does
    python3 tests/model_arms.py --write    writes it anew

It has an arm for each call of REQUESTS that a function of its name in the model answers: each parameter, by its type, takes the next
arguments of the request, and the bytes lent are x, y and z in turn. How many values an accepted answer has, and whether there is an
output, is in REQUESTS. Other calls have an arm by hand, in calls.rs."""
import pathlib
import re
import sys

from request_names import OUTPUTS, table

ROOT = pathlib.Path(__file__).resolve().parent.parent
WRITTEN = ROOT / "compare/cases/src/asked.rs"
FUNCTION = re.compile(r"(?m)^pub fn (\w+)\(([^)]*)\) -> Answer \{")
LENT = ("l.x", "l.y", "l.z")
WIDTH = 140

# What a parameter takes, by its type, and the kinds of the arguments of a request that it takes.
TAKES = {
    "Lent": ("a.lent({})", ["M"]),
    "Option<Lent>": ("a.lent_or_none({})", ["OM"]),
    "Span": ("a.span({})", ["start", None]),
    "Builder": ("a.builder()", ["B"]),
    "Cursor": ("a.cursor()", ["C"]),
    "&[u8]": ("{}", []),
    "&mut [u8]": ("l.o", []),
    "&[u32]": ("l.i", []),
    "&mut [u32]": ("l.i", []),
    "&[i32]": ("l.e", []),
    "&mut [i32]": ("l.e", []),
    "usize": ("a.number()", [None]),
    "u64": ("a.word()", [None]),
    "bool": ("a.flag()", [None]),
}


RECORDS = ("M", "OM", "B", "C", "T", "W", "OP")


def values(answer):
    """Returns how many values an answer has if something is found; 0 if it never misses them."""
    items = [item.split(" ")[0] for item in answer.split(";")[0].split(", ")]
    return len([item for item in items if item not in RECORDS]) if "`-`" in answer else 0


def arm(module, name, parameters, shape):
    """Returns the arm of a call; none if the function takes other arguments than its requests have, or if a refusal returns another record
    than an answer."""
    arguments, answer, output = shape
    lent, left, given = iter(LENT), list(arguments), []
    if "; R" in answer and not re.search(rf"\b{arguments[0]}\b", answer):
        return None
    for parameter in filter(None, parameters.split(", ")):
        text, kinds = TAKES.get(parameter.split(": ")[1], (None, ()))
        if text is None:
            return None
        for kind in kinds:
            if not left or (left[0] != kind if kind else left[0] in RECORDS):
                return None
            left.pop(0)
        given.append(text.format(next(lent)) if "{}" in text else text)
    call = f"{module}::{name}({', '.join(given)})"
    return None if left else (f'"{name}"', call, f"{values(answer)}, Output::{OUTPUTS[output] if output else None}")


def wrapped(name, call, rest):
    """Returns an arm as it is laid out: on one line, else in a block, else with each argument of its call on a line."""
    one = f"plainly({call}, {rest})"
    if len(f"        {name} => {one},") <= WIDTH:
        return f"        {name} => {one},\n"
    if len(f"            {one}") <= WIDTH:
        return f"        {name} => {{\n            {one}\n        }}\n"
    lines = "".join(f"            {part},\n" for part in (call, *rest.split(", ")))
    return f"        {name} => plainly(\n{lines}        ),\n"


def text():
    found, parts, used = table(), [], []
    for path in sorted((ROOT / "compare/model/src").glob("*.rs")):
        functions = [(name, parameters) for name, parameters in FUNCTION.findall(path.read_text(encoding="utf-8")) if name in found]
        arms = [arm(path.stem, name, parameters, found[name]) for name, parameters in functions]
        arms = [wrapped(*parts_) for parts_ in arms if parts_]
        if arms:
            used.append(path.stem)
            parts.append(f"fn of_{path.stem}(name: &str, a: &mut Args, l: &mut Lents) -> Option<Reply> {{\n    Some(match name {{\n"
                         + "".join(arms) + "        _ => return None,\n    })\n}\n")
    asks = [f"    of_{used[0]}(name, a, l)", *(f"        .or_else(|| of_{module}(name, a, l))" for module in used[1:])]
    head = (
        "//! The calls that the model's function of their name answers. Written by tests/model_arms.py from compare/model and\n"
        "//! docs/REQUESTS.md.\n\nuse crate::arguments::Args;\nuse crate::calls::{Lents, Output, Reply, plainly};\n"
        f"use model::{{{', '.join(used)}}};\n\n"
        "/// Returns the answer of the call if a function of the model has its name.\n"
        "pub fn answer(name: &str, a: &mut Args, l: &mut Lents) -> Option<Reply> {\n" + "\n".join(asks) + "\n}\n\n"
    )
    return head + "\n".join(parts)


def main():
    new, old = text(), WRITTEN.read_text(encoding="utf-8") if WRITTEN.exists() else ""
    if "--write" in sys.argv:
        WRITTEN.write_text(new, encoding="utf-8")
    complaints = [] if new == old or "--write" in sys.argv else ["compare/cases/src/asked.rs is old: run tests/model_arms.py --write"]
    print("\n".join(complaints + [f"{new.count(' => ')} calls that the model answers by name, {len(complaints)} complaints"]))
    return 1 if complaints else 0


if __name__ == "__main__":
    sys.exit(main())
