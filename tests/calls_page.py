"""Compares docs/CALLS.md with the crates: its tables must name every public function and agree with the sources.

    python3 tests/calls_page.py            prints what differs, and fails if anything does
    python3 tests/calls_page.py --write    writes these cells anew

Taken from the sources: a call's arguments and the definitions that its `ensures` cite, and what each `impl` of a trait promises
(src/**/*.rt), the numbers by which it may refuse (statements/Refusals.antt), the wrong answers tried (tables/Wrong*.antt), and how many
lines a file has: those with definitions and comments, without imports and empty lines. Of the sources an `ensures` is one line, and the
records and enums that these definitions cite, or that a public function takes or returns, are counted from the keyword to the closing
brace. Written by hand are the column `answer`, the order of the rows, and the table of edits. Also checked: that the first table has
exactly the files that public contracts reach and the row of records and enums, that the files define nothing that no contract reaches,
that each file of specs/, statements/ and tables/ is named, that tables/Witnesses.antt names each call that may refuse, that each call that
may refuse with 3, which takes a mask with its count, is named above a field of the theorem on counts (statements/CountsUnseen.antt), and
that the wrong answer of each edit is one of its call's row. The pages of SAID_IN contain the sum of the first table."""
import glob
import os
import re
import sys

ROOT = os.path.dirname(os.path.dirname(os.path.abspath(__file__)))
PAGE = os.path.join(ROOT, "docs", "CALLS.md")
CRATES = ("words", "activity", "masks", "grids", "run_ends", "dispatch", "report")
TOTAL = re.compile(r"[\d,]+(?= lines of definitions\s+and\s+contracts)")
NAME = r"[^\W\d][\w'-]*"
SAID_IN = ("README.md", os.path.join("docs", "CALLS.md"), os.path.join("docs", "TRUST.md"))
EXPORTS = "capi/src"
# The lines of a second sum, which a reader of the exports believes in addition, and the pages that state it.
MORE = re.compile(r"[\d,]+(?= lines of equations\s+and\s+conversions)")
MORE_IN = (os.path.join("docs", "CALLS.md"), os.path.join("docs", "TRUST.md"))
PLAIN = {"bit_at", "flag_at"}  # the sentence on Arrow's numbering, which the definitions of words/specs/Flags.antt are proved to say
RECORDS = "*/src"  # the row of the records and enums
CALL = re.compile(r"^`([\w:]+)(?:\(.*\))?`$")


def read(*path):
    with open(os.path.join(ROOT, *path), encoding="utf-8") as file:
        return file.read()


def beside(crate, pattern):
    """Returns the texts of the files below a crate's proofs/ that match."""
    found = sorted(glob.glob(os.path.join(ROOT, "crates", crate, "proofs", pattern)))
    return [read(path) for path in found]


def definitions():
    """Returns the files of definitions, of statements and of tables, without the lists of modules."""
    folders = ("specs", "specs/equations", "proofs/statements", "proofs/tables")
    found = [path for folder in folders for path in glob.glob(os.path.join(ROOT, "crates", "*", folder, "*.antt"))]
    paths = sorted(os.path.relpath(path, os.path.join(ROOT, "crates")) for path in found)
    return [path for path in paths if not path.endswith(("/Lib.antt", "/equations.antt"))]


# ---- the functions of src/*.rt


def head_of(text, at):
    """Returns a function's head, from its name to the brace that opens its body; clauses have braces of their own."""
    depth, start = 0, at
    while True:
        if text[at] == "{":
            if depth == 0 and not re.search(r"(requires|ensures)(\s+\w+)?\s*$", text[start:at]):
                return text[start:at]
            depth += 1
        elif text[at] == "}":
            depth -= 1
        at += 1


def arguments(head):
    at = head.index("(") + 1
    depth, parts = 1, [""]
    while depth:
        depth += {"(": 1, "[": 1, "<": 1, ")": -1, "]": -1, ">": -1}.get(head[at], 0)
        if head[at] == "," and depth == 1:
            parts.append("")
        elif depth:
            parts[-1] += head[at]
        at += 1
    return [part.split(":")[0].split()[-1].lstrip("&") for part in parts if part.strip()]


def named(head):
    """Yields the name of each `ensures`, if it has one, and its text."""
    for clause in re.finditer(r"\bensures(?:\s+(\w+))?\s*\{", head):
        at, depth = clause.end(), 1
        while depth:
            depth += {"{": 1, "}": -1}.get(head[at], 0)
            at += 1
        yield clause[1] or "", " ".join(head[clause.end() : at - 1].split())


def promised(head):
    """Yields the text of each `ensures`."""
    for _, text in named(head):
        yield text


def cited(head):
    """Returns what the page has of each `ensures`: by which checks the call is refused, what a value equals, or a clause of another form
    whole. Lent bytes are only their names. Left out is that a refusal leaves what was passed as it was, which all clauses `unchanged` and
    `state` say in the same words."""
    out = []
    for name, clause in named(head):
        text = re.sub(r"[«»]|(?<=\w)\.(?:now|old)\b", "", clause)
        refused = re.fullmatch(r"(?:(.*?) → )?\w+ result ≡ first_failed (.*)", text)
        value = re.fullmatch(r"IfOk result \(λ \w+\. .*? ≡ (.*)\)|OnOk result \(.*? ≡ (.*)\)", text)
        if name == "refused" and refused:
            checks = re.sub(r"^\((.*)\)$", r"\1", refused[2])
            out.append((f"if `{refused[1]}`, " if refused[1] else "") + f"refused by `{checks}`")
        elif name == "empty" and text.endswith("→ failure_of result ≡ 0"):
            out.append(f"if `{text.partition(' →')[0]}`, not refused")
        elif value:
            out.append(f"{name}: `{value[1] or value[2]}`")
        elif not (name in ("unchanged", "state") and re.match(r"(?:OnErr|IfErr) result ", text)):
            before, _, side = text.partition("≡")
            side = text if "→" in text or "λ" in before else (side or before).strip()
            out.append((f"{name}: " if name else "") + f"`{side}`")
    return out


def sources(crate):
    """Returns the sources of a crate, those below a folder of a module too."""
    return sorted(glob.glob(os.path.join(ROOT, "crates", crate, "src", "**", "*.rt"), recursive=True))


def source(path):
    """Returns a source without comments; a name that is imported as another is replaced by its own name."""
    text = re.sub(r"//[^\n]*", "", read(path))
    for line in re.findall(r"ghost use[^;]*;", text):
        for name, other in re.findall(r"(\w+) as (\w+)", line):
            text = re.sub(rf"\b{other}\b", name, text)
    return text


def functions(crate):
    """Returns the arguments of each public function, what the page has of its clauses, and their number: methods by their type's name, and
    a function of a later module whose name was there before by its module's."""
    found = {}
    for path in sources(crate):
        text = source(path)
        owner = ""
        for match in re.finditer(r"(?m)^impl (\w+) \{$|^(\})|\bpub fn (\w+)", text):
            if match[1]:
                owner = match[1] + "::"
            elif match[2]:
                owner = ""
            else:
                head = head_of(text, match.start(3))
                if owner + match[3] in found:
                    owner = os.path.basename(path)[:-3] + "::"
                found[owner + match[3]] = arguments(head), cited(head), len(list(promised(head)))
    return found


def impls(crate):
    """Returns the promise of each `impl` of a trait that the crate does not declare, by the two names; none for one with no function."""
    found = {}
    paths = sources(crate)
    own = {name for path in paths for name in re.findall(r"\btrait (\w+)", source(path))}
    for path in paths:
        for match in re.finditer(r"(?m)^impl(?:<[^\n]*?>)? ((?:\w+::)*(\w+)[^\n]*?) for ([^\n]*?) \{\n(.*?)^\}", source(path), re.S):
            if match[2] not in own:
                name = f"`{match[1]} for {match[3]}` of `{crate}`"
                found[name] = " ".join(re.sub(r"^ghost use [^;]*;", "", match[4].strip()).split("fn ")[0].split())
    return {name: re.sub(r"^ghost (\w+) = \{ (.*) \};.*", r"`\1`: `\2`", promise) for name, promise in found.items()}


# ---- the definitions that contracts reach


def uses(text):
    """Returns the files of definitions that a source or such a file uses, with the names taken from each."""
    found = re.findall(r"use Rattle\.(\w+)\.specs\.((?:equations\.)?[A-Z]\w*)\.\{([^}]*)\}", text)
    found = [(crate, name.replace(".", "/"), names) for crate, name, names in found]
    files = [(f"{crate}/specs/{name}.antt", {n.split(" as ")[-1].strip() for n in names.split(",")}) for crate, name, names in found]
    return [(file, names) for file, names in files if os.path.isfile(os.path.join(ROOT, "crates", file))]


def clauses():
    """Yields for each source file its text, and the names that the clauses of its public functions and of its impls have."""
    for crate in CRATES:
        for path in sources(crate):
            text = source(path)
            heads = [head_of(text, match.start(1)) for match in re.finditer(r"\bpub fn (\w+)", text)]
            said = [clause for head in heads for clause in promised(head)]
            said += re.findall(r"\bghost (?:output|from_gives) = \{(.*?)\};", text, re.S)
            yield text, set(re.findall(NAME, " ".join(said)))


def reached():
    """Returns the files that the clauses of public functions cite, and those that these use in turn."""
    waiting = [file for text, words in clauses() for file, names in uses(text) if names & words]
    found = set()
    while waiting:
        file = waiting.pop()
        if file not in found:
            found.add(file)
            waiting += [used for used, _ in uses(read("crates", file))]
    return found


def parts(file):
    """Returns the definitions of a file by name, each with its text, without comments."""
    text = re.sub(r"--[^\n]*", "", read("crates", file))
    starts = list(re.finditer(rf"(?m)^(?:unfoldable |abbrev )?pub (?:record |data )?(?!use |mod )({NAME})", text))
    ends = [start.start() for start in starts[1:]] + [len(text)]
    return {start[1]: text[start.start() : end] for start, end in zip(starts, ends)}


def unreached(files):
    """Returns a complaint for each definition of these files that no clause of a public function reaches, compared only by name."""
    known, waiting, found = {}, set(), set()
    for file in files:
        for name, text in parts(file).items():
            known.setdefault(name, []).append((file, text))
    for _, words in clauses():
        waiting |= words
    while waiting:
        name = waiting.pop()
        if name in known and name not in found:
            found.add(name)
            waiting |= set(re.findall(NAME, " ".join(text for _, text in known[name])))
    return [f"{file}: no contract reaches {name}" for name in sorted(set(known) - found - PLAIN) for file, _ in known[name]]


# ---- the records and enums over which these are stated


def types(crate):
    """Returns the public records and enums of a crate's sources by module and name, each with its text up to the closing brace."""
    found = {}
    for path in sources(crate):
        text = read(path)
        for match in re.finditer(r"(?m)^pub (?:struct|enum) (\w+)[^;{]*[;{]", text):
            at, depth = match.end(), text[match.end() - 1] == "{"
            while depth:
                depth += {"{": 1, "}": -1}.get(text[at], 0)
                at += 1
            found[os.path.basename(path)[: -len(".rt")], match[1]] = text[match.start() : at]
    return found


def records(files):
    """Returns the records and enums that these files of definitions cite, or that a public function with an `ensures` takes or returns;
    and complaints about cited ones that are not public."""
    cited = set()
    for file in files:
        cited |= set(re.findall(r"use Rattle\.(\w+)\.specs\.declared\.(?:[a-z]\w*\.)*([a-z]\w*)\.([A-Z]\w*)", read("crates", file)))
    found, complaints = {}, []
    for crate in CRATES:
        texts = [source(path) for path in sources(crate)]
        heads = [head_of(text, match.start(1)) for text in texts for match in re.finditer(r"\bpub fn (\w+)", text)]
        words = set(re.findall(r"\w+", " ".join(head for head in heads if "ensures" in head)))
        for (module, name), text in types(crate).items():
            if name in words or (crate, module, name) in cited:
                found[crate, module, name] = text
        for _, module, name in sorted(one for one in cited if one[0] == crate and one not in found):
            complaints.append(f"{crate}/src/{module}.rt has no public record or enum {name}, which a definition cites")
    return found, complaints


# ---- statements and tables


def refusals(crate):
    """Returns the numbers that `may_give` lists, by the calls named in the comment above them; without names, for the whole crate."""
    found = {}
    for text in beside(crate, "statements/Refusals.antt"):
        table = text[text.index("abbrev pub may_give") :]
        names, above = [], ""
        for line in table.split("\n\n")[0].split("\n"):
            if line.startswith("--"):
                names = names if above.startswith("--") else []
                names += re.findall(r"`([\w:]+)`", line)
            elif " = " in line:
                for name in names or ["*"]:
                    found.setdefault(name, set()).update(re.findall(r"\b\d+\b", line.split(" = ")[1]))
            above = line
    return found


def wrong_answers(crate):
    """Returns the faults named in the tables of wrong answers, by call, two for each row."""
    found = {}
    for text in beside(crate, "tables/Wrong*.antt"):
        faults = []
        for line in text.split("\n"):
            row = re.match(r"  -- `([\w:]+)`", line)
            fault = re.match(r"      -- (.*)", line)
            if row:
                faults = found.setdefault(row[1], [])
            elif fault:
                faults.append(fault[1])
    return found


def witnessed(crate):
    return {name for text in beside(crate, "tables/Witnesses.antt") for name in re.findall(r"`([\w:]+)`", text)}


def counts_unseen(crate):
    """Returns what the theorem on counts states of each call: the fields below the comment that names it."""
    found = {}
    for text in beside(crate, "statements/CountsUnseen.antt"):
        for comment, fields in re.findall(r"(?m)((?:^  --.*\n)+)((?:^  (?!--).*\n?)+)", text):
            for name in re.findall(r"`([\w:]+)`", comment):
                found[name] = found.get(name, "") + fields
    return found


def masks_taken(crate):
    """Returns how many masks each public function takes, absent ones too."""
    found = {}
    for path in sources(crate):
        text, owner = source(path), ""
        for match in re.finditer(r"(?m)^impl (\w+) \{$|^(\})|\bpub fn (\w+)", text):
            if match[1] or match[2]:
                owner = match[1] or ""
            else:
                taken = re.split(r"->|\b(?:requires|ensures)\b", head_of(text, match.start(3)))[0]
                own = owner == "Bitmap" and re.search(r"\bself\b", taken) is not None
                found[(owner + "::" if owner else "") + match[3]] = own + len(re.findall(r": (?:Option<)?Bitmap\b", taken))
    return found


# ---- the page


def promises():
    return {name: promise for crate in (*CRATES, "capi") for name, promise in impls(crate).items()}


def facts():
    """Returns the cells of each call's row, by column; and complaints."""
    rows, complaints = {}, []
    order = re.findall(r"\d+", re.search(r"(?m)^order =(.*?)^$", read("crates", "masks", "specs", "Checks.antt"), re.S)[1])
    for crate in CRATES:
        numbers, wrong, named, unseen = refusals(crate), wrong_answers(crate), witnessed(crate), counts_unseen(crate)
        taken = masks_taken(crate)
        for name, (args, definitions, _) in functions(crate).items():
            checks = sorted(numbers.get(name, numbers.get("*", ())), key=lambda n: (order.index(n) if n in order else 0, int(n)))
            if name in rows:
                complaints.append(f"two public functions are named {name}")
            if name in numbers and name not in named:
                complaints.append(f"{crate}/proofs/tables/Witnesses.antt does not name {name}")
            if "3" in checks:
                made = re.match(r"refused by `(\w+)", next(iter(definitions), ""))
                stated = len(re.findall(rf"\b{made[1]}\b", unseen.get(name, ""))) if made else 0
                if stated < taken[name]:
                    complaints.append(f"{crate}/proofs/statements/CountsUnseen.antt states {stated} of {taken[name]} masks of {name}")
            rows[name] = {
                "call": f"`{name}({', '.join(args)})`",
                "checks": " ".join(checks) or "none",
                "definition": "; ".join(definitions).replace("|", "\\|"),
                "wrong answers ruled out": "; ".join(wrong.get(name) or wrong.get(re.sub("^[a-z_]+::", "", name), [])),
            }
        complaints += [f"{crate}/proofs/tables/Wrong*.antt: no public function {name}" for name in wrong if name not in rows]
    return rows, complaints


def size_of(path):
    """Counts the lines of a file, without imports and empty lines; for a crate's src, the clauses of its public functions and impls; for
    RECORDS, the lines of the records and enums that are cited; for EXPORTS, the clauses of the exports and the lines of their records."""
    if path == RECORDS:
        return str(sum(text.count("\n") + 1 for text in records(reached())[0].values()))
    if path == EXPORTS:
        return str(sum(text.count("ensures") + text.count("\n") + 1 for text in exported()))
    if path.endswith("/src"):
        crate = path.split("/")[0]
        return str(sum(clauses for _, _, clauses in functions(crate).values()) + len(impls(crate)))
    if not os.path.isfile(os.path.join(ROOT, "crates", path)):
        return "no such file"
    return str(sum(1 for line in read("crates", path).split("\n") if line and not re.match(r"(unfoldable )?(pub )?use ", line)))


def exported():
    """Yields the records of the exports, from the keyword to the closing brace, and one line with the clauses of all exports."""
    texts = [source(path) for path in sorted(glob.glob(os.path.join(ROOT, "crates", "capi", "src", "*.rt")))]
    for text in texts:
        yield from (found[0] for found in re.finditer(r"(?m)^pub struct \w+ \{.*?^\}", text, re.S))
    heads = [head_of(text, found.end()) for text in texts for found in re.finditer(r'\bpub extern "C" fn ', text)]
    yield " ".join("ensures" for head in heads for _ in promised(head)).replace("\n", " ")


def cells_of(line):
    return [cell.strip() for cell in re.split(r"(?<!\\)\|", line)[1:-1]]


def renewed(line, columns, rows, seen, complaints):
    """Returns a line of a table with the cells that come from the sources."""
    cells = cells_of(line)
    if len(cells) != len(columns):
        complaints.append(f"{len(cells)} cells under {len(columns)} columns: {line}")
        return line
    call = CALL.match(cells[0])
    if columns[0] == "call" and call:
        seen.append(call[1])
        known = rows.get(call[1], {"call": f"no public function {call[1]}"})
        cells = [known.get(column, cell) for column, cell in zip(columns, cells)]
        if "wrong answers ruled out" in columns and "; " not in cells[columns.index("wrong answers ruled out")]:
            complaints.append(f"{call[1]} has no two wrong answers")
    elif columns[0] == "impl":
        seen.append(cells[0])
        cells[1] = promises().get(cells[0], "no such impl")
    elif columns[0] == "edited call":
        faults = rows.get(call and call[1], {}).get("wrong answers ruled out", "")
        if cells[1] not in faults.split("; "):
            complaints.append(f"{cells[0]}: '{cells[1]}' is none of: {faults}")
    elif columns[:2] == ["file", "lines"]:
        cells[1] = size_of(cells[0].split("`")[1])
    return "| " + " | ".join(cells) + " |"


def main():
    rows, complaints = facts()
    columns, seen, out = [""], [], []
    old = read(PAGE).split("\n")
    for line in old:
        if not line.startswith("|"):
            columns = [""]
        elif columns == [""]:
            columns = cells_of(line)
        elif not line.startswith("|---"):
            line = renewed(line, columns, rows, seen, complaints)
        out.append(line)
    complaints += [f"no row for {name}" for name in (*rows, *promises()) if name not in seen]
    complaints += [f"no promise of {name}" for name, promise in promises().items() if not promise.startswith("`")]
    first = "\n".join(old).split("| file | lines | what |")[1].split("\n\n")[0]
    believed = set(re.findall(r"`(\S+\.antt)`", first))
    total = f"{sum(int(size_of(path)) for path in re.findall(r'(?m)^. `(.*?)`', first)):,}"
    second = "\n".join(old).split("lines of equations and conversions")[1].split("| file | lines | what |")[1].split("\n\n")[0]
    besides = re.findall(r"(?m)^. `(.*?)`", second)
    more = f"{sum(int(size_of(path)) for path in besides):,}"
    wanted = {path for path in definitions() if "/specs/equations/" in path or path.startswith("capi/specs/")} | {EXPORTS}
    wanted.discard("capi/specs/Workers.antt")  # what private functions promise
    complaints += [f"{path}: in the equations and conversions or in their table, not in both" for path in sorted(wanted ^ set(besides))]
    complaints += [f"{path}: in the contracts or in the first table, not in both" for path in sorted(believed ^ reached())]
    complaints += [f"{path} is not named" for path in definitions() if f"`{path}`" not in "\n".join(old)]
    complaints += [f"{seen.count(name)} rows for {name}" for name in sorted(set(seen)) if seen.count(name) > 1]
    complaints += unreached(believed) + records(believed)[1]
    complaints += [] if f"`{RECORDS}`" in first else [f"the first table has no row {RECORDS}"]
    sums = [(page, TOTAL, total) for page in SAID_IN] + [(page, MORE, more) for page in MORE_IN]
    for page, pattern, number in sums:
        said = pattern.findall(read(page))
        if "--write" not in sys.argv and said != [number]:
            complaints.append(f"{page}: a sum of lines is {number}, and it says {' '.join(said) or 'nothing'}")
    if "--write" in sys.argv:
        with open(PAGE, "w", encoding="utf-8") as file:
            file.write("\n".join(out))
        for page, pattern, number in sums:
            text = pattern.sub(number, read(page))
            with open(os.path.join(ROOT, page), "w", encoding="utf-8") as file:
                file.write(text)
    else:
        complaints += [f"line {k}: is   {a}\n{' ' * 8}wants {b}" for k, (a, b) in enumerate(zip(old, out), 1) if a != b]
    counted = f"{len(rows)} public functions, {total} lines to believe, {more} more for exports"
    print("\n".join(complaints + [f"{counted}, {len(complaints)} complaints"]))
    return 1 if complaints else 0


if __name__ == "__main__":
    sys.exit(main())
