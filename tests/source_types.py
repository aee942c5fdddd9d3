"""Cuts source files of a crate down to their types, which tests/wrong_definitions.py checks instead of functions and their proofs."""
import re

KIND = re.compile(
    r"(?:#\[[^\]]*\]\s*)*(?:pub(?:\([a-z]+\))?\s+)?(ghost\s+use|const\s+fn|use|mod|struct|enum|trait|type|const|impl|fn|extern)\b"
)


def blank(text):
    """Returns the text with comments, strings and byte literals blanked, at the same positions."""
    literal = r"""//[^\n]*|/\*.*?\*/|"(?:\\.|[^"\\])*"|'(?:\\x[0-9A-Fa-f]{2}|\\.|[^'\\\n])'"""
    return re.sub(literal, lambda found: re.sub(r"[^\n]", " ", found[0]), text, flags=re.S)


def items(code, at, end):
    """Yields where each item of code[at:end] begins and ends: at a semicolon, or at the brace that closes its body."""
    while True:
        while at < end and code[at].isspace():
            at += 1
        if at >= end:
            return
        start, depth, done = at, 0, False
        while at < end and not done:
            if code[at] == "{" and depth == 0:
                head, level = code[start:at], 1
                at += 1
                while at < end and level:
                    level += {"{": 1, "}": -1}.get(code[at], 0)
                    at += 1
                clause = re.search(r"\bfn\b", head) and re.search(r"\b(requires|ensures|ghost)(\s+\w+)?\s*$", head)
                done = not clause and not re.match(r"(pub(\([a-z]+\))?\s+)?(ghost\s+)?use\b", head)
                continue
            depth += {"(": 1, "[": 1, ")": -1, "]": -1}.get(code[at], 0)
            at += 1
            done = code[at - 1] == ";" and depth == 0
        yield start, at


def kind(code):
    """Returns what an item declares: `struct`, `use`, .., or an empty text."""
    found = KIND.match(code)
    return re.sub(r"\s+", " ", found[1]) if found else ""


def imported(item):
    """Yields the names that a `use` item brings, each with an item that brings only this name."""
    head, names = re.fullmatch(r"(.*?)(?:\{(.*)\})?\s*;", item, re.S).groups()
    for name in names.split(",") if names is not None else [""]:
        path = " ".join(f"{head}{name}".split())
        if path and not path.endswith("::"):
            yield re.search(r"(\w+)$", path)[1], path + ";"


def types_only(text):
    """Returns a source file's modules, structs, enums, traits, type names and constants, and the imports that these need; also those
    of clauses if one of these has a ghost field or member."""
    text = re.sub(r"(?m)^#!\[[^\n]*\]\n", "", text)
    code, kept, imports, ghosts = blank(text), [], [], []
    for start, end in items(code, 0, len(code)):
        what = kind(code[start:end])
        if what in ("mod", "struct", "enum", "trait", "type", "const"):
            kept.append(text[start:end])
        elif what == "ghost use":
            # only `impl` blocks, which are cut away, name laws of the repository
            if not re.search(r"\bRattle\.(?!core\b|std\b)\w+\.proofs\.", text[start:end]):
                ghosts.append(text[start:end])
        elif what == "use":
            imports += imported(text[start:end])
        elif what == "impl":
            inner = code.index("{", start)
            consts = [text[a:b] for a, b in items(code, inner + 1, end - 1) if kind(code[a:b]) == "const"]
            if consts:
                kept.append(text[start:inner] + "{\n" + "\n".join(consts) + "\n}")
    body = "\n\n".join(kept)
    plain = blank(body)
    needed = [line for name, line in imports if re.search(rf"(?<!fn )\b{name}\b", plain)]
    clauses = ghosts if re.search(r"\bghost\b", plain) else []
    return "\n".join(clauses + needed + [body]) + "\n"
