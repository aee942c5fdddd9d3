"""What a kind of place of a public call is, and what the kinds share: for which calls, and where names are looked for. The kinds are in
kinds_in_proofs.py and kinds_in_uses.py. Used by tests/call_places.py."""
import functools
import re

import calls_page
import public_calls
from public_calls import IDENT, files, makes_only_a_record, read, uses, words_in

STATIC = uses()[1]
MASKED = public_calls.holders("Bitmap")
SERIALS = MASKED | public_calls.holders("BitmapBuilder")
CALLS, OTHERS = public_calls.calls()
NONE = "!"  # in no file

MUST, MAY, FREE = "must", "may", "free"  # each call must have it; a line says that a call has none; no call needs it
KINDS = []


class Kind:
    def __init__(self, key, says, level, applies, written, find):
        self.key, self.says, self.level, self.applies, self.find = key, says, level, applies, find
        self.written = written if callable(written) else lambda call: written
        self.shared = key in ("shape", "conversion")  # a call touches these only if it brings the first answer of its shape


def kind(key, says, level=MUST, applies=lambda call: True, written=False):
    """Adds a kind, whose files the decorated function returns. `written` is whether a script writes them, for all calls or by the call."""

    def adds(find):
        KINDS.append(Kind(key, says, level, applies, written, find))
        return find

    return adds


# ---- for which calls


def is_call(call):
    return call in CALLS


def refuses(call):
    return bool(call.numbers)


def refusing_call(call):
    return is_call(call) and refuses(call)


def may_fail(call):
    """Whether its answer is a result whose error is a type of refusal."""
    return is_call(call) and bool(re.search(r"^Result<.*, [A-Z]\w+(?:<\w+>)?>$", call.result))


def several_numbers(call):
    return is_call(call) and len(call.numbers) > 1


def counted(call):
    return "3" in call.numbers


def makes_mask(call):
    return call.gives(MASKED) and not makes_only_a_record(call)


def has_records(call):
    """Whether it is a call of a crate that has records, of which the Rust crate has types; `words` uses no crate and has none."""
    return is_call(call) and bool(uses()[0][call.crate])


# ---- where names are looked for


def specs(crate):
    """Returns the definitions of a crate by name, each with its file and its text."""
    return {name: (path, text) for path in files(f"crates/{crate}/specs/**/*.antt")
            for name, text in calls_page.parts(path.removeprefix("crates/")).items()}


@functools.cache
def helpers(crate):
    """Returns what the tables and statements of a crate and of those below it define, each name with the names in its text."""
    found = {}
    for name in [crate, *uses()[0].get(crate, ())]:
        for path in files(f"crates/{name}/proofs/tables/*.antt") + files(f"crates/{name}/proofs/statements/*.antt"):
            for key, text in calls_page.parts(path.removeprefix("crates/")).items():
                found[key] = frozenset(IDENT.findall(text))
    return found


@functools.cache
def reached(path, crate):
    """Returns the names in a file, and those of which the helpers that it names are made."""
    waiting, found = list(words_in(path)), set()
    while waiting:
        name = waiting.pop()
        if name not in found:
            found.add(name)
            waiting += helpers(crate).get(name, ())
    return frozenset(found)


def forms(call):
    """Returns a call and the others that its definition reads too."""
    return [call, *(other for other in CALLS if call.is_form_of(other))]


def citing(call, pattern, *also):
    """Returns the statements and tables that name a definition with which a clause of the call begins, and these names."""
    heads = set().union(*(form.heads for form in forms(call)))
    found = [(path, reached(path, call.crate)) for path in files(f"crates/{call.crate}/proofs/{pattern}")]
    return [path for path, names in found if heads & names and set(also) <= names]


def naming(call, pattern):
    """Returns the proofs that name a definition of the call themselves, not only by what they state or by a law."""
    names = set().union(*(form.definitions for form in forms(call)))
    return [path for path in files(f"crates/{call.crate}/proofs/{pattern}") if names & words_in(path)]


def saying(pattern, text):
    """Returns the files in which a regular expression is found."""
    return [path for path in files(pattern) if re.search(text, read(path))]


def proving(call, statement, *theorems):
    """Returns the theorems of these names in which each field of a statement is proved that names a definition of the call."""
    heads = set().union(*(form.heads for form in forms(call)))
    blocks = re.split(r"\n  pub ", read(f"crates/{call.crate}/proofs/statements/{statement}.antt"))[1:]
    fields = [block.split(" ")[0] for block in blocks if heads & set(IDENT.findall(block.partition(":")[2]))]
    found = [path for name in theorems for path in files(f"crates/{call.crate}/proofs/theorems/{name}.antt")]
    return [path for path in found if all(re.search(rf"(?<![\w-]){field} =", read(path)) for field in fields)]


def rows_of(call, pattern):
    """Returns the files of tables that name the call in the comment of a row."""
    names = {f"`{form.name}`" for form in forms(call)}
    return [path for path in files(f"crates/{call.crate}/proofs/{pattern}") if any(name in read(path) for name in names)]


def exports_of(call):
    """Returns the exports of a call, else those of another with its definition."""
    return next((form.exports for form in forms(call) if form.exports), [])


def plain_of(call):
    """Returns the names of the Rust crate's plain functions for a call."""
    return [name.removeprefix("pw_") for name in exports_of(call)]


def request_of(call):
    """Returns the name of a call in requests, its group and its variant, else those of another with its definition."""
    name = next((form.request for form in forms(call) if form.request), None)
    return (name, *public_calls.named()[name][2:]) if name else (NONE, NONE, NONE)


def asked(call):
    return re.escape(request_of(call)[0])


def on_page(call, page, before="`"):
    names = {form.name for form in forms(call)}
    names |= {form.short for form in forms(call) if [other.short for other in CALLS].count(form.short) <= 2}
    return saying(f"docs/{page}.md", rf"{before}(?:\w+::)?(?:{'|'.join(map(re.escape, names))})\b")
