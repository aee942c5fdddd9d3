"""Reads the public calls of the library crates, only from the sources: crates.txt, src/*.rt, the exports of crates/capi and the table of
names of crates/notation. Used by tests/call_places.py."""
import functools
import re

import calls_page
import exports

ROOT = exports.ROOT
IDENT = re.compile(r"[^\W\d][\w'-]*")


@functools.cache
def read(path):
    """Returns the text of a file below the repository, empty if there is none."""
    file = ROOT / path
    return file.read_text(encoding="utf-8") if file.is_file() else ""


def files(pattern):
    return sorted(str(path.relative_to(ROOT)) for path in ROOT.glob(pattern) if path.is_file() and "target" not in path.parts)


@functools.cache
def words_in(path):
    """Returns the names in a file, without its comments and imports."""
    text = re.sub(r"(?m)--.*$|^(?:pub )?use .*$", "", read(path))
    return frozenset(IDENT.findall(text))


@functools.cache
def uses():
    """Returns for each crate of crates.txt the libraries that it uses, and the crate that is the static library."""
    lines = [line.partition(":") for line in read("crates.txt").splitlines() if line and not line.startswith("#")]
    static = [head.split()[0] for head, _, _ in lines if "staticlib" in head.split()]
    return {head.split()[0]: used.split() for head, _, used in lines}, static[0]


def crates():
    """Returns the crates whose calls are exported."""
    used, static = uses()
    return used[static]


@functools.cache
def defined(crate):
    """Returns the names that the specs of a crate define."""
    return frozenset(name for path in files(f"crates/{crate}/specs/**/*.antt") for name in calls_page.parts(path.removeprefix("crates/")))


@functools.cache
def imported(path, crate):
    """Returns the names that a source takes from the specs of its crate."""
    lists = re.findall(rf"ghost use Rattle\.{crate}\.specs\.(?:equations\.)?[A-Z]\w*\.\{{([^}}]*)\}}", calls_page.source(path))
    return frozenset(name.split(" as ")[0].strip() for names in lists for name in names.split(","))


def sides_of(head):
    """Returns the names in each side of an equation, or in each other clause, of a contract."""
    return [IDENT.findall(side) for said in calls_page.cited(head) for side in re.findall(r"`([^`]*)`", said)]


class Call:
    """A public function: its file, its name (a method's with the type), its head, and what its contract cites."""

    def __init__(self, crate, path, owner, short, head):
        self.crate, self.path, self.owner, self.short, self.head = crate, path, owner, short, head
        self.module = path.split("/")[-1].removesuffix(".rt")
        self.name = f"{owner}::{short}" if owner else short
        self.key = f"{self.module}::{self.name}"
        plain = re.sub(r"\b(?:requires|ensures)\b.*", "", head, flags=re.S)
        self.arguments = plain[plain.index("(") :].rpartition("->")[0] or plain[plain.index("(") :]
        self.result = plain.rpartition("->")[2].strip() if "->" in plain else ""
        self.clauses = list(calls_page.promised(head))
        self.sides = sides_of(head)
        readers = [re.match(r"\(?(\w+)(?: \([^)]*\)| \w+)? result\b", clause) for clause in self.clauses if "≡" in clause]
        self.readers = {found[1] for found in readers if found and any(found[1] in defined(other) for other in [crate, *uses()[0][crate]])}
        self.own, self.definitions, self.heads = set(), set(), set()
        self.numbers, self.exports, self.request, self.conversions = (), [], None, set()

    def cite(self, sides, common):
        """Adds what these sides of equations name: the definitions of the call's crate, without those common to calls of most modules, and
        of each side the one that it begins with."""
        known = (defined(self.crate) | imported(self.path, self.crate)) - common
        for side in sides:
            names = [name for name in side if name in known]
            self.definitions.update(names)
            self.heads.update(names[:1])

    @property
    def writes(self):
        return "&mut" in self.arguments

    def takes(self, types):
        own = f"self: {self.owner}" if re.search(r"\bself\b", self.arguments) else ""
        return bool(types & set(IDENT.findall(self.arguments + own)))

    def gives(self, types):
        own = self.result.replace("Self", self.owner or "Self")
        error = re.search(r", (?:Refused<)?\w+>?>$", own)
        return bool(types & set(IDENT.findall(own[: error.start()] if error else own)))

    def is_form_of(self, other):
        """Whether both are read by one definition, so that what is shown of the other's holds of this one."""
        a, b = self.own, other.own
        return self is not other and self.crate == other.crate and bool(a and b) and (a <= b or b <= a)

    def __repr__(self):
        return self.key


def holders(name):
    """Returns the types that hold a record of this name: itself, and the structs with a field of such a type."""
    found = {name}
    for crate in crates():
        for path in files(f"crates/{crate}/src/**/*.rt"):
            for struct, body in re.findall(r"\bpub struct (\w+)(?:<[^>]*>)? \{(.*?)\n\}", read(path), re.S):
                if re.search(rf":\s*(?:Option<)?{name}\b", body):
                    found.add(struct)
    return found


def makes_only_checks(call):
    """Whether it only makes checks, or compares refusals or their numbers: a part of a call, for crates above, and no call of its own."""
    checks = re.fullmatch(r"Result<\(\), \w+>", call.result) or call.name == "earlier"
    return bool(checks) and not call.writes


def makes_only_a_record(call):
    """Whether it only makes the record that calls of crates above return: a mask, of no bytes and with no refusal."""
    return not call.owner and call.result == "Bitmap"


def is_call(call):
    """Whether a public function is a call. `words` refuses nothing and has functions for the crates above it: there a call is what the
    reference names."""
    if makes_only_checks(call) or makes_only_a_record(call):
        return False
    return bool(uses()[0][call.crate]) or f"`{call.short}(" in read("docs/REFERENCE.md")


def functions():
    """Returns all public functions of these crates, in the order of the sources."""
    found = []
    for crate in crates():
        for path in files(f"crates/{crate}/src/**/*.rt"):
            text, owner = calls_page.source(path), ""
            for match in re.finditer(r"(?m)^impl (\w+)(?![^\n]*\{\}$)|^(\})|\bpub fn (\w+)", text):
                if match[3]:
                    found.append(Call(crate, path, owner, match[3], calls_page.head_of(text, match.start(3))))
                else:
                    owner = match[1] or ""
    return found


def bodies():
    """Yields each export's name with its contract, its body and the sources that it may use of its crate."""
    static = uses()[1]
    for path in files(f"crates/{static}/src/**/*.rt"):
        text = calls_page.source(path)
        for match in re.finditer(r'extern "C" fn (\w+)(.*?)\n\}\n', text, re.S):
            yield match[1], match[2], text


def returning():
    """Returns for each private function of the exports' crate the type that it returns: `builder_in` makes a BitmapBuilder."""
    static = uses()[1]
    return {name: kind for path in files(f"crates/{static}/src/**/*.rt")
            for name, kind in re.findall(r"\bfn (\w+)\([^)]*\)\s*->\s*(\w+)", calls_page.source(path))}


def makes(call, body, text, made):
    """Whether the body of an export makes this call."""
    if not call.owner:
        free = rf"(?:^|[^\w.:]|\b{call.module}::){call.short}\("
        imported = re.search(rf"\buse {call.crate}::(?:\w+::)*\{{?[^;]*\b(?:{call.short}|{call.module})\b", text)
        return bool(imported) and bool(re.search(free, body))
    if not re.search(rf"\buse {call.crate}::[^;]*\b{call.owner}\b", text):
        return False
    if f"{call.owner}::{call.short}(" in body:
        return True
    receivers = set(IDENT.findall(body))
    typed = call.owner in receivers or any(made.get(name) == call.owner for name in receivers)
    return typed and bool(re.search(rf"\.{call.short}\(", body))


@functools.cache
def named():
    """Returns for each name of the table of requests its number of arguments, its output and its variant."""
    rows = re.findall(r'^    "([^"]+)" (\d+) (\w+) Call::(\w+)(?:\(\w+::(\w+)\))?;', read("crates/notation/src/names.rt"), re.M)
    return {name: (int(many), output, group, variant) for name, many, output, group, variant in rows}


def request_of(call):
    """Returns the name under which requests make a call: its own, or a method's without its type if no other has it."""
    if call.name in named():
        return call.name
    return call.short if call.short in named() else None


def common_names(found):
    """Returns the names that the contracts of calls of more than half of the modules of a crate cite, as `first_failed`."""
    common = set()
    for crate in crates():
        modules = {}
        for call in found:
            if call.crate == crate:
                modules.setdefault(call.module, set()).update(name for side in call.sides for name in side)
        names = set().union(*modules.values())
        common |= {name for name in names if len(modules) > 4 and 2 * sum(name in cited for cited in modules.values()) > len(modules)}
    return common


def calls():
    """Returns the calls, each with its numbers, its exports and its name in requests; and the public functions that are no calls. What
    the contract of an export cites counts as cited by its call."""
    found = functions()
    taken = {crate: calls_page.refusals(crate) for crate in crates()}
    made, common, known = returning(), common_names(found), list(bodies())
    for call in found:
        table = taken[call.crate]
        call.numbers = sorted(table.get(call.name, table.get("*", ()) if is_call(call) else ()), key=int)
        call.request = request_of(call)
        call.cite(call.sides, common)
        call.own = set(call.definitions)
        for name, rest, text in known:
            contract, _, body = rest.rpartition("\n{")
            if makes(call, body, text, made):
                call.exports.append(name)
                sides = sides_of(contract + " {")
                call.cite(sides, common)
                call.conversions |= {name for side in sides for name in side if name.startswith("as_")} & defined(uses()[1])
    return [call for call in found if is_call(call)], [call for call in found if not is_call(call)]
