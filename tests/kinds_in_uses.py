"""The kinds of place of a public call outside its crate: C and Rust, requests, models, comparisons and documents. Each function returns the
files in which it finds the call."""
import re

import export_proofs
import exports
import proof_rows
from call_kinds import FREE, MAY, NONE, STATIC, asked, exports_of, has_records, is_call, kind, on_page, plain_of, refusing_call, request_of
from call_kinds import saying, several_numbers
from public_calls import files, read, words_in

RUST = "bindings/rust"
CASES = "compare/cases/src"
EXAMPLES = {export.name for export in exports.exports() if export.example}
NUMBERS = exports.refusals()
BY_FORM = export_proofs.entries(proof_rows.fields)[1]


# ---- C and Rust


@kind("export", "the export", applies=is_call)
def export(call):
    return [path for name in exports_of(call) for path in saying(f"crates/{STATIC}/src/**/*.rt", rf"fn {name}\(")]


@kind("export's lists", "the list of modules, if the module of its export has no other", FREE, written=True)
def export_lists(call):
    found = []
    for path in export(call):
        module = path.split("/")[-1].removesuffix(".rt")
        if read(path).count("#[unsafe(no_mangle)]") == 1:
            found += saying(f"crates/{STATIC}/src/lib.rt", rf"mod {module};")
    return found


@kind("export refuses", "the statement on the export's refusals, with the call's numbers", applies=refusing_call)
def export_refuses(call):
    if any(sorted(NUMBERS.get(name, ()), key=int) != call.numbers for name in exports_of(call)):
        return []
    return [path for name in exports_of(call) for path in saying(f"crates/{STATIC}/proofs/statements/Refusals.antt", f"pub {name} :")]


@kind("export proved", "the theorem on the export's refusals", applies=refusing_call,
      written=lambda call: BY_FORM.issuperset(exports_of(call)))
def export_proved(call):
    return [path for name in exports_of(call) for path in saying(f"crates/{STATIC}/proofs/theorems/Refusals.antt", rf"\b{name} =")]


@kind("conversion", "what the conversion of its answer holds, and a row of it, for one that no other call has",
      applies=lambda call: call.conversions and files(f"crates/{STATIC}/proofs/tables/*.antt"))
def conversion(call):
    found = []
    for pattern in ("statements/*Plain.antt", "tables/*.antt"):
        paths = [path for path in files(f"crates/{STATIC}/proofs/{pattern}") if call.conversions & words_in(path)]
        if not call.conversions <= set().union(*map(words_in, paths)):
            return []
        found += paths
    return found


@kind("header", "the header", applies=is_call, written=True)
def header(call):
    return [path for name in exports_of(call) for path in saying("include/*", rf"\b{name}\b")]


@kind("declarations", "the declarations in Rust, the plain function, and the list of their modules", applies=is_call, written=True)
def declarations(call):
    found = [path for name in exports_of(call) for path in saying(f"{RUST}/src/calls/exports.rs", rf"fn {name}\(")]
    found += [path for name in plain_of(call) for path in saying(f"{RUST}/src/calls/*.rs", rf"pub fn {name}\(")]
    return found and [*found, f"{RUST}/src/calls/mod.rs"]


@kind("example", "the example of the plain function, in the comment of its export", applies=is_call)
def example(call):
    return export(call) if EXAMPLES.issuperset(exports_of(call)) else []


def callers(call):
    """Returns the functions of the Rust crate that call the plain function: file, name, and whether it is public without an example."""
    found, plain = [], "|".join(plain_of(call)) or NONE
    for path in files(f"{RUST}/src/**/*.rs"):
        name, said, bare = "", [], False
        for line in [] if "/calls/" in path else read(path).split("\n"):
            head = re.match(r"\s*(pub )?fn (\w+)", line)
            if head:
                name, bare = head[2], bool(head[1]) and not any("```" in text for text in said)
            if re.search(rf"^(?!\s*//).*\bcalls::(?:{plain})\b", line):
                found.append((path, name, bare))
            said = [*said, line] if line.lstrip().startswith("//") else said if line.lstrip().startswith("#[") else []
    return found


@kind("method", "the function of a type of the Rust crate, with an example if it is public", applies=has_records)
def method(call):
    return [] if any(bare for _, _, bare in callers(call)) else sorted({path for path, _, _ in callers(call)})


def methods(call):
    return {name for _, name, _ in callers(call)}


@kind("Rust", "a test in Rust", applies=is_call)
def rust(call):
    return saying(f"{RUST}/tests/**/*.rs", rf"\b(?:{'|'.join({*plain_of(call), *methods(call)}) or NONE})\b")


@kind("C", "a test in C", applies=is_call)
def c_test(call):
    return [path for name in exports_of(call) for path in saying("tests/c/calls.c", rf"\b{name}\b")]


# ---- requests, models and comparisons


@kind("variant", "the variant of its group", applies=is_call, written=True)
def variant(call):
    _, group, name = request_of(call)
    return saying("crates/notation/src/call.rt", rf"\b{name or group}\b")


@kind("name", "the name of its requests", applies=is_call, written=True)
def name_of_requests(call):
    return saying("crates/notation/src/names.rt", rf'"{asked(call)}" ')


@kind("arm", "the arm that makes it", applies=is_call)
def arm(call):
    _, group, name = request_of(call)
    return saying("crates/requests/src/**/*.rt", rf"\b{group}Call::{name}\b" if name else rf"\bCall::{group}\b")


@kind("request", "its line in REQUESTS", applies=is_call)
def request(call):
    return saying("docs/REQUESTS.md", rf"`{asked(call)}\b")


def arms(call):
    """Returns the arms of compare/cases that answer the call."""
    shape_ = rf'"{asked(call)}"(?: \| "[\w:]+")*(?:, |.*?=>)(.*?)(?=\n        "|\n        _ =>)'
    return [text for path in files(f"{CASES}/*.rs") for text in re.findall(shape_, read(path), re.S)]


@kind("model", "the model in Rust", applies=is_call)
def model(call):
    names = {name for text in arms(call) for name in re.findall(r"\b\w+::(\w+)", text)} | {call.short}
    return saying("compare/model/src/*.rs", rf"\bfn (?:{'|'.join(names)})\b|\benum (?:Count|Op|WordOp)\b[^}}]*\b(?:{'|'.join(names)})\b")


@kind("cases", "the arm of compare/cases", applies=is_call)
def cases(call):
    return [path for path in files(f"{CASES}/*.rs") if re.search(rf'"{asked(call)}"(?: \||, Op| =>)', read(path))]


@kind("asked", "its arm by the model's function of its name", FREE, applies=is_call, written=True)
def asked_by_name(call):
    return saying(f"{CASES}/asked.rs", rf'"{asked(call)}" =>')


@kind("rows", "its rows of the case file", applies=is_call)
def rows(call):
    if not saying("crates/cases/stdin", rf"(?m)^(?:\+ )?{asked(call)} "):
        return []
    other = ("/asked.rs", "/calls.rs", "/several.rs")
    return [path for path in saying(f"{CASES}/*.rs", rf"\b{asked(call)}\b") if not path.endswith(other)]


@kind("several", "several of its checks that fail", applies=several_numbers)
def several(call):
    """In several.rs, or in the module with its other requests, which asks by `choices`."""
    return [path for path in saying(f"{CASES}/*.rs", rf"\b{asked(call)}\b") if path.endswith("/several.rs") or "choices(f, " in read(path)]


@kind("case file", "the case file", applies=is_call, written=True)
def case_file(call):
    return saying("crates/cases/std*", rf"(?m)^{asked(call)}[ :]")


@kind("Python", "the model in Python, and how requests call it", applies=is_call)
def python(call):
    rows_ = re.findall(rf'(?m)^    "{asked(call)}": (.*)$', read("tests/cases.py"))
    names = "|".join({name for row in rows_ for name in re.findall(r"\b([a-z]\w+)\(", row)} | {request_of(call)[0].split("::")[-1]})
    own = saying("tests/reference.py", rf"(?m)^def (?:{names})\(")
    return own + ["tests/cases.py"] if rows_ else own


@kind("driver", "the comparison with the Rust", MAY, lambda call: is_call(call) and call.exports and not on_page(call, "DIFFERENCES"))
def driver(call):
    return saying("compare/driver/src/table/*.rs", rf'(?:"|counting!\()(?:{"|".join(plain_of(call))})\b')


@kind("benchmark", "the benchmark", MAY, applies=is_call)
def benchmark(call):
    return saying("bench/src/**/*.rs", rf"\b(?:{'|'.join({*plain_of(call), *methods(call)}) or NONE})\b(?:\(|,)")


@kind("dispatch", "the calls that dispatch may use",
      applies=lambda call: saying("crates/dispatch/src/**/*.rt", rf"\buse {call.crate}::[\w:{{, ]*\b{call.short}\b"))
def dispatch(call):
    return saying("tests/dispatch_calls.py", rf'"{call.short}"')


# ---- documents


@kind("REFERENCE", "REFERENCE", applies=is_call)
def reference(call):
    return on_page(call, "REFERENCE")


@kind("CALLS", "CALLS: its row, of which the answer can be made plainer by hand", written=True)
def calls(call):
    return on_page(call, "CALLS")


@kind("ARCHITECTURE", "the table of its crate's modules in ARCHITECTURE", applies=is_call, written=True)
def architecture(call):
    return on_page(call, "ARCHITECTURE")


@kind("wrong definitions' page", "the table of wrong definitions", FREE, written=True)
def contracts(call):
    return saying("docs/CONTRACTS.md", rf"`(?:{'|'.join(call.definitions) or NONE})`")


@kind("THEOREMS", "THEOREMS", FREE, applies=is_call)
def theorems(call):
    return on_page(call, "THEOREMS")


@kind("CHANGES", "CHANGES", FREE, applies=is_call)
def changes(call):
    return on_page(call, "CHANGES", r"`(?:pw_)?")


@kind("other documents", "DIFFERENCES, DECISIONS, and other pages that name it", FREE, applies=is_call)
def documents(call):
    return on_page(call, "DIFFERENCES") + on_page(call, "DECISIONS") + saying("compare/README.md", rf"`{call.short}`")
