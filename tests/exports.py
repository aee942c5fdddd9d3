"""Reads the exports of crates/capi, the functions that C and Rust call, only from the sources."""
import pathlib
import re
import sys

ROOT = pathlib.Path(__file__).resolve().parent.parent
CAPI = ROOT / "crates/capi"

# What a refused export returns, by its name or by the encoding that its contract names; from every other one all fields are 0.
KEPT = {
    "pw_activity_new": "every other field is then 0, and both arrays stay as they are",
    "pw_activity_push_minute": "the window is unchanged: place, fill, width and both arrays",
    "pw_activity_counts": "`out` then stays as it is",
    "as_same_mask": "the mask is unchanged, every field of it",
    "as_zeros": "the mask is unchanged, every field of it, and `zeros` is 0",
    "as_builder": "the builder is unchanged",
    "as_offer": "`cursor` is unchanged, and every other field is 0",
    **dict.fromkeys(("as_word", "as_bit", "as_run", "as_taken", "as_remainder"), "`place` is unchanged, and every other field is 0"),
}


# The example in a comment.
EXAMPLE = r"(?ms)^/// ```\n.*?^/// ```\n"


class Export:
    """An exported function: its module, its name, its arguments as pairs of name and type, its result, its contract, its comment, and the
    example in Rust at the end of that."""

    def __init__(self, module, comment, name, arguments, result, contract):
        self.module, self.name, self.result, self.contract = module, name, result, contract
        self.arguments = pairs(arguments)
        self.comment, self.example = said(re.sub(EXAMPLE, "", comment)), "".join(re.findall(EXAMPLE, comment))
        encoding = re.search(r"≡\s*(as\w+)", contract)
        self.kept = KEPT.get(name) or KEPT.get(encoding[1] if encoding else "", "every other field is then 0")
        self.numbers = refusals().get(name)

    def sentences(self):
        """Returns what the export does and how it refuses, in sentences."""
        if self.numbers is None:
            return self.comment
        if not self.numbers:
            return f"{self.comment} Refuses nothing."
        return f"{self.comment} Refuses with {', '.join(self.numbers)}; {self.kept}."


def said(comment):
    """Returns the lines of a comment as one text, whichever of //, /// and //! it has."""
    lines = (re.sub(r"^//[/!]?", "", line).strip() for line in comment.strip().split("\n"))
    return " ".join(line for line in lines if line)


def pairs(text):
    """Returns the `name: type` pairs of a text, where they are separated by commas."""
    return [tuple(re.sub(r"\s+", " ", side.strip()) for side in part.split(":", 1)) for part in text.split(",") if part.strip()]


def lowered(arguments):
    """Yields arguments as they are passed: a slice as a pointer and the number of its elements, a reference to an array as a pointer."""
    for name, kind in arguments:
        lent = re.fullmatch(r"&(mut )?\[(\w+)(; \d+)?\]", kind)
        pointer = lent and ("*mut " if lent[1] else "*const ")
        if lent and lent[3]:
            yield name, f"{pointer}[{lent[2]}{lent[3]}]"
        elif lent:
            yield name, pointer + lent[2]
            yield name + "_len", "usize"
        else:
            yield name, kind


def wrapped(arguments, width):
    """Returns arguments, each followed by a comma, on lines of this width; none is broken."""
    lines = [""]
    for argument in arguments:
        longer = f"{lines[-1]} {argument},".strip()
        if len(longer) <= width:
            lines[-1] = longer
        else:
            lines.append(argument + ",")
    return lines


def source(module):
    return (CAPI / "src" / f"{module}.rt").read_text()


def modules():
    """Yields the modules with exports, each with the text of its first comment: in the order in which proofs/statements/Refusals.antt
    states their exports, and last those that cannot refuse."""
    fields = {name: place for place, name in enumerate(refusals())}
    places = {}
    for path in sorted((CAPI / "src").glob("*.rt")):
        if "#[unsafe(no_mangle)]" in path.read_text():
            places[path.stem] = min((fields.get(name, len(fields)) for name in re.findall(r"\bfn (pw_\w+)\(", path.read_text())))
    for module in sorted(places, key=places.get):
        comment = re.match(r"(?://[^\n]*\n)+", source(module))[0].split("\n//!\n")[0]
        heading = said(comment).removeprefix("Exported to C and Rust: ")
        yield module, heading[0].upper() + heading[1:]


def exports():
    """Returns all exports in the order of the declarations."""
    shape = r'((?:^//[^\n]*\n)+)#\[unsafe\(no_mangle\)\]\npub extern "C" fn (\w+)\((.*?)\)\s*(?:->\s*(\w+)\s*)?((?:ensures.*?)?)^\{'
    found = []
    for module, _ in modules():
        text = source(module)
        these = re.findall(shape, text, re.S | re.M)
        if len(these) != text.count("#[unsafe(no_mangle)]"):
            sys.exit(f"{module}: {text.count('#[unsafe(no_mangle)]')} exports, of which {len(these)} are understood; each needs a comment")
        found += [Export(module, *this) for this in these]
    return found


def records_of(text):
    """Returns the repr(C) structs of Rattle or Rust: each name, with the comment before it and its fields in order."""
    shape = r"((?:^//[^\n]*\n)*)#\[repr\(C\)\]\s*(?:#\[[^\]]*\]\s*)*pub(?:\([a-z]+\))? struct (\w+)\s*\{(.*?)\}"
    found = {}
    for comment, name, body in re.findall(shape, text, re.S | re.M):
        body = re.sub(r"//[^\n]*", "", body)
        found[name] = (said(comment), pairs(re.sub(r"\bpub(?:\([a-z]+\))?\s", "", body)))
    return found


def records():
    return {**records_of(source("records")), **records_of(source("answers"))}


def refusals():
    """Returns the numbers that proofs/statements/Refusals.antt lists for each export that can refuse."""
    found = {}
    for field in re.split(r"\n  pub ", (CAPI / "proofs/statements/Refusals.antt").read_text()):
        listed = re.match(r"(pw_\w+) :.*?\b(?:Gives\w*|Appends|Combines|Counts) (?:\(([\d ∷]+)\[\]\)|\[\])", field, re.S)
        if listed:
            found[listed[1]] = re.findall(r"\d+", listed[2] or "")
    return found


def interface():
    """Returns the version of the interface, from the name of its symbol."""
    return int(re.search(r"fn pw_interface_(\d+)\(", source("interface"))[1])
