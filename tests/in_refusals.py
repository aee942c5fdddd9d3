"""Makes what include/refusals.txt decides: the refusals in the sources of masks and activity, in the statements, tables and laws on them,
in the header and in the Rust crate. Used by tests/declarations.py.

Each file is written by hand except for some places, which `placed` finds by what stands before and after them."""
import re
import textwrap

from exports import ROOT

LIST = "include/refusals.txt"
MASKS = "crates/masks/"
ACTIVITY = "crates/activity/"
HEADER = "include/poruwhina.h"
RUST = "bindings/rust/src/refusal.rs"
OF_ACTIVITY = {16}


class Refusal:
    """A refusal of the list: its number, its name, the text that is printed, what its check is, and whether a call gives it."""

    def __init__(self, line, meaning):
        number, self.name, self.text = line.split(" ", 2)
        self.number = int(number)
        self.given = not self.text.startswith("later ")
        self.meaning = meaning

    @property
    def field(self):
        return re.sub(r"(?<!^)([A-Z])", r"_\1", self.name).lower()

    @property
    def constant(self):
        return "PW_REFUSED_" + self.field.upper()

    def numbered(self):
        """Returns what the check is, after its number."""
        return f"{self.number}: {self.meaning[0].lower()}{self.meaning[1:]}"


def listed():
    """Returns the refusals of the list in its order."""
    parts = re.split(r"(?m)^(?=\d)", re.sub(r"(?m)^#.*\n", "", (ROOT / LIST).read_text()))
    lines = [part.strip().split("\n") for part in parts if part.strip()]
    return [Refusal(head, " ".join(line.strip() for line in below)) for head, *below in lines]


def given(of_activity=None):
    """Returns the refusals that a call gives: all, or those of activity, or those of masks."""
    return [one for one in listed() if one.given and of_activity in (None, one.number in OF_ACTIVITY)]


def placed(path, text, places):
    """Returns a text in which each place, between what a pair of patterns finds, has the lines given for it."""
    for before, after, lines in places:
        found = re.findall(rf"({before})(.*?)({after})", text, re.S | re.M)
        if len(found) != 1:
            raise SystemExit(f"{path}: {len(found)} places between {before!r} and {after!r}")
        text = re.sub(rf"({before}).*?({after})", lambda match: match[1] + "".join(lines) + match[2], text, count=1, flags=re.S | re.M)
    return text


def documented(one, width):
    return "".join(f"    /// {line}\n" for line in textwrap.wrap(one.numbered(), width - 8, break_on_hyphens=False))


# ---- Rattle


def arm(kind, one, width=100):
    """Returns the arm of a match that gives the text of a refusal, as `rt fmt` lays it out."""
    line = f'            {kind}::{one.name} => "{one.text}",\n'
    short = len(line) - 1 <= width
    return line if short else f'            {kind}::{one.name} => {{\n                "{one.text}"\n            }}\n'


def source(path, kind, value, ones):
    text = (ROOT / path).read_text()
    places = (
        (rf"pub enum {kind} \{{\n", r"^\}", [f"{documented(one, 140)}    {one.name},\n" for one in ones]),
        (r"result\.now ≡ reason self \}\n    \{\n        match self \{\n", r"^        \}", [arm(kind, one) for one in ones]),
        (rf"-> u8 \{{\n        match {value} \{{\n", r"^        \}",
         [f"            {kind}::{one.name} => {one.number},\n" for one in ones]),
    )
    return placed(path, text, places)


def imported(module, ones):
    """Returns the lines of `use` for the variants."""
    names = textwrap.wrap(", ".join(one.name for one in ones), 140 - len(f"use {module}.{{}}"))
    return [f"use {module}.{{{line.strip(', ')}}}\n" for line in names]


def with_variants(text, ones, module="Rattle.masks.specs.declared.refusal.Refusal.TheVariants"):
    """Returns a text whose lines of `use` for the variants are these."""
    lines = "".join(imported(module, ones))
    return re.sub(rf"(?m)(?:^use {re.escape(module)}\.\{{[^}}]*\}}\n)+", lambda _: lines, text, count=1)


def definition(path, text, ones):
    return placed(path, text, (
        (r"^abbrev pub number : \w+ → ℕ\n", r"^$", [f"number {one.name} = {one.number}\n" for one in ones]),
        (r"^abbrev pub reason : \w+ → List ℕ\n", r"^$", [f'reason {one.name} = codes "{one.text}"\n' for one in ones]),
    ))


def conses(items, indent):
    return [f"{indent}{'∷ ' if at else ''}{item}\n" for at, item in enumerate([*items, "[]"])]


def laws(path, ones):
    text = with_variants((ROOT / path).read_text(), ones)
    return placed(path, text, (
        (r"^abbrev refusals : List Refusal\nrefusals =\n", r"^$", conses([one.name for one in ones], "    ")),
        (r"^of-each : [^\n]*\n", r"^$", [f"of-each p e {one.name} = at p refusals e {at} (omega arith)\n" for at, one in enumerate(ones)]),
        (r"^pub number-ne0 : [^\n]*\n", r"^$", [f"number-ne0 {one.name} e = omega arith\n" for one in ones]),
    ))


def texts(path, ones):
    text = with_variants((ROOT / path).read_text(), ones)
    return placed(path, text, ((r"^pub record Texts : Type 0 where\n", r"\Z", [printed(one) for one in ones]),))


def printed(one):
    said = f'codes "refused with {one.number}: {one.text}"'
    line = f"  pub {one.field} : said {one.name} ≡ {said}\n"
    return line if len(line) <= 121 else f"  pub {one.field} : said {one.name}\n      ≡ {said}\n"


def in_rattle():
    """Returns the files of Rattle and antt, by path."""
    ones, of_activity = given(False), given(True)
    proofs = MASKS + "proofs/"
    found = {
        MASKS + "src/refusal.rt": source(MASKS + "src/refusal.rt", "Refusal", "refusal", ones),
        ACTIVITY + "src/window.rt": source(ACTIVITY + "src/window.rt", "WindowRefusal", "e", of_activity),
        proofs + "refusal/RefusalLaws.antt": laws(proofs + "refusal/RefusalLaws.antt", ones),
        proofs + "tables/Texts.antt": texts(proofs + "tables/Texts.antt", ones),
    }
    path = MASKS + "src/checks.rt"
    arms = [f"        {one.number} => {place},\n" for place, one in enumerate(ones)] + [f"        _ => {len(ones)},\n"]
    found[path] = placed(path, (ROOT / path).read_text(), ((r"^    match number \{\n", r"^    \}", arms),))
    path = MASKS + "specs/Refusal.antt"
    found[path] = definition(path, with_variants((ROOT / path).read_text(), ones), ones)
    path = ACTIVITY + "specs/Window.antt"
    module = "Rattle.activity.specs.declared.window.WindowRefusal.TheVariants"
    found[path] = definition(path, with_variants((ROOT / path).read_text(), of_activity, module), of_activity)
    path = MASKS + "specs/Checks.antt"
    found[path] = placed(path, (ROOT / path).read_text(), ((r"^order =\n", r"^$", conses([one.number for one in ones], "    ")),))
    path = proofs + "computed/Texts.antt"
    found[path] = placed(path, (ROOT / path).read_text(),
                         ((r"^    record \{\n", r"^    \}", [f"      {one.field} = refl;\n" for one in ones]),))
    by_number = sorted(ones, key=lambda one: one.number)
    path = proofs + "statements/AnswerPlain.antt"
    rows = [f"  pub {one.field} : number {one.name} ≡ {one.number}\n" for one in by_number]
    text = with_variants((ROOT / path).read_text(), ones)
    found[path] = placed(path, text, ((r"^pub record NumbersPlain : Type 0 where\n", r"^$", rows),))
    path = proofs + "theorems/AnswerPlain.antt"
    rows = [f"            {one.field} = refl;\n" for one in by_number]
    found[path] = placed(path, (ROOT / path).read_text(), ((r"^      numbers =\n          record \{\n", r"^          \}", rows),))
    path = "crates/capi/proofs/statements/Refusals.antt"
    line = " ∷ ".join([*(str(number) for number in sorted(one.number for one in given())), "[]"])
    found[path] = placed(path, (ROOT / path).read_text(), ((r"^abbrev pub numbers : List ℕ\n", r"^$", [f"numbers = {line}\n"]),))
    return found


# ---- C and Rust


def in_header():
    """Returns the named numbers of the header."""
    parts = []
    for one in given():
        lines = textwrap.wrap(one.meaning, 132, break_on_hyphens=False)
        parts.append("/* " + "\n * ".join(lines) + f" */\n#define {one.constant} {one.number}\n")
    return "".join(parts)


def in_rust():
    """Returns the list of refusals of the Rust crate."""
    ones = given()
    text = (ROOT / RUST).read_text()
    words = []
    for one in ones:
        line = f'            Refusal::{one.name} => "{one.text}",\n'
        words.append(line if len(line) <= 141 else f'            Refusal::{one.name} => {{\n                "{one.text}"\n            }}\n')
    return placed(RUST, text, (
        (r"pub enum Refusal \{\n", r"^\}", [f"{documented(one, 135)}    {one.name} = {one.number},\n" for one in ones]),
        (r"^const ALL: \[Refusal; ", r"^\];", [f"{len(ones)}] = [\n", *(f"    Refusal::{one.name},\n" for one in ones)]),
        (r"fn words\(self\) -> &'static str \{\n        match self \{\n", r"^        \}", words),
    ))


def files():
    """Returns each file that is written, except the header, of which in_c.py writes the rest."""
    return {ROOT / path: text for path, text in {**in_rattle(), RUST: in_rust()}.items()}
