"""Prints which calls of masks the sources of dispatch use, and fails on one that is neither a combination nor a search; so for the
definitions of masks that those of dispatch use.

    python3 tests/dispatch_calls.py            reads crates/dispatch, its src/ and its specs/
    python3 tests/dispatch_calls.py FOLDER     reads src/ and specs/ of that folder instead

By the reference dispatch uses only combinations and searches of masks. A call is found by its name where it is imported (`use
masks::module::name;`, or among others in braces) or written with its path, a method by its name after a dot or after its type. Of the
types of masks, only those may be named that a combination or a search takes or returns. Nothing of words may be used.

A file of specs/, and what a source imports for clauses, may take of masks/specs/

    the definitions of a combination or a search, which are the files of DEFINITIONS; a clause of a call of that module must cite one
    the words in which every contract and every equation is written: READING
    the same types as the sources

So no check of masks by itself, as `mask_checks`, nor the checks of another call: dispatch has those checks only that a combination or a
search makes, in its definitions as in its code."""
import pathlib
import re
import sys

import calls_page

ROOT = pathlib.Path(__file__).resolve().parent.parent

# By module of masks: the calls that dispatch may use. Add a new one here.
COMBINATIONS = {
    "bitmap_ops": ("and", "and_not", "or", "or_not", "xor", "not", "select", "select_constant"),
    "at_index": ("and_not_at",),
}
SEARCHES = {"bitmask": ("nth_set_bit_idx", "nth_set_bit_idx_rev"), "next_and_not": ("next_and_not",)}

# By module of masks: the file of masks/specs with the definitions of these calls.
DEFINITIONS = {"bitmap_ops": "Combine", "at_index": "AtIndex", "bitmask": "Search", "next_and_not": "NextAndNot"}
# By file of masks/specs: what may be imported to write contracts, equations and lists of checks.
READING = {
    "equations.Answer": ("Answer", "answer", "checked", "given", "refused"),
    "Checks": ("Check", "first_failed"),
    "Refusal": ("number", "failure_of", "said"),
}

ITEM = re.compile(r"(?m)^impl (\w+)|^(\})|^pub(?:\(crate\))? (?:struct|enum) (\w+)|\bpub fn (\w+)(.*?)\bensures\b", re.S)


def code_of(path):
    """Returns a source without its comments and its imports for clauses; each other import has a path for each name."""
    text = re.sub(r"//[^\n]*", "", path.read_text(encoding="utf-8"))
    text = re.sub(r"(?m)^ghost use [^;]*;", "", text)
    return re.sub(
        r"(?m)^((?:pub )?use [\w:]+::)\{([^}]*)\};",
        lambda found: "\n".join(f"{found[1]}{name.strip()};" for name in found[2].split(",") if name.strip()),
        text,
    )


def kinds():
    """Returns, for `module::name` of each call that is allowed, what kind of call it is."""
    found = {}
    for kind, table in (("combination", COMBINATIONS), ("search", SEARCHES)):
        for module, names in table.items():
            found.update({f"{module}::{name}": kind for name in names})
    return found


def masks():
    """Returns the public functions of masks by `module::name` with their heads, its types by `module::name`, and its public methods."""
    functions, types, methods = {}, set(), {}
    for path in sorted((ROOT / "crates/masks/src").rglob("*.rt")):
        text, owner = code_of(path), ""
        for match in ITEM.finditer(text):
            if match[1]:
                owner = match[1]
            elif match[2]:
                owner = ""
            elif match[3]:
                types.add(f"{path.stem}::{match[3]}")
            elif owner:
                methods.setdefault(match[4], set()).add(owner)
            else:
                functions[f"{path.stem}::{match[4]}"] = match[5]
    return functions, types, methods


def uncited():
    """Returns a complaint for each file of DEFINITIONS of which no clause of the module's combinations and searches cites a definition."""
    complaints, stated = [], calls_page.functions("masks")
    for module, file in DEFINITIONS.items():
        text = (ROOT / f"crates/masks/src/{module}.rt").read_text(encoding="utf-8")
        imported = " ".join(re.findall(rf"ghost use Rattle\.masks\.specs\.{file}\.\{{([^}}]*)\}}", text))
        names = [name.split("::")[1] for name in kinds() if name.startswith(module + "::")]
        clauses = " ".join(clause for name in names for clause in stated.get(name, ((), ()))[1])
        if not set(re.findall(r"[\w-]+", imported)) & set(re.findall(r"[\w-]+", clauses)):
            complaints.append(f"no combination or search of {module} cites masks/specs/{file}.antt: correct the lists of this script")
    return complaints


def definitions(folder, taken):
    """Returns which definitions of masks the files of a folder import, and a complaint for each that they may not."""
    used, complaints = set(), []
    for path in [*sorted(folder.glob("specs/**/*.antt")), *sorted(folder.glob("src/**/*.rt"))]:
        text = re.sub(r"--[^\n]*|//[^\n]*", "", path.read_text(encoding="utf-8"))
        for crate, file, names in re.findall(r"\buse Rattle\.(\w+)\.([\w.]+?)\.\{([^}]*)\}", text):
            for name in (name.split(" as ")[0].strip() for name in names.split(",")):
                place = f"{crate}.{file}.{name}"
                kind, _, module = file.partition(".")
                if crate in ("std", "dispatch"):
                    continue
                if crate == "masks" and (module in DEFINITIONS.values() or name in READING.get(module, ()) and kind == "specs"):
                    used.add(place)
                elif not (crate == "masks" and module.startswith("declared.") and name in taken):
                    complaints.append(f"{path.name}: {place} is no definition of a combination or a search, nor a type of one")
    return used, complaints


def main():
    home = pathlib.Path(sys.argv[1]) if len(sys.argv) > 1 else ROOT / "crates/dispatch"
    folder = home / "src"
    allowed, (functions, types, methods) = kinds(), masks()
    complaints = [f"masks has no public function {name}: correct the lists of this script" for name in allowed if name not in functions]
    taken = {word for name in allowed for word in re.findall(r"\w+", functions.get(name, ""))}
    used = {}
    sources = sorted(folder.rglob("*.rt"))
    for path in sources:
        text = code_of(path)
        for name in re.findall(r"\bmasks::((?:\w+::)*\w+)", text):
            if name in functions:
                used[name] = allowed.get(name)
            elif name not in types:
                complaints.append(f"{path.name}: masks::{name} is neither a public function nor a type of masks")
            elif name.split("::")[1] not in taken:
                complaints.append(f"{path.name}: the type masks::{name} is taken and given by no combination and no search")
        for name in re.findall(r"(?:\.|\b\w+::)(\w+)\(", text):
            if name in methods and not re.search(rf"\bfn {name}\b", text):
                used[f"{'/'.join(sorted(methods[name]))}::{name}"] = None
        if re.search(r"\bwords::", text):
            complaints.append(f"{path.name}: words is used")
    complaints += [f"masks::{name} is no combination and no search" for name, kind in used.items() if not kind]
    cited, others = definitions(home, taken)
    complaints += uncited() + others
    if not sources or not used:
        complaints.append(f"{folder}: no source, or none that uses masks")
    for name, kind in sorted(used.items()):
        print(f"dispatch uses masks::{name}: {kind or 'not allowed'}")
    counts = f"{len(used)} calls of masks in {len(sources)} sources of dispatch, {len(cited)} definitions of masks in its own"
    print("\n".join(complaints + [f"{counts}, {len(complaints)} complaints"]))
    return 1 if complaints else 0


if __name__ == "__main__":
    sys.exit(main())
