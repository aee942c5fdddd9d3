"""Runs the checker over wrong definitions on copies of the crates, for tests/wrong_definitions.py, whose docstring has the method."""
import fnmatch
import os
import pathlib
import re
import shutil
import subprocess
import sys
import tempfile

from source_types import types_only

# A module's name is the path of its file below specs/ or proofs/, with dots: `Mask`, `computed.EdgeRows`.
NAMED = re.compile(r"\bRattle\.(\w+)\.(specs|proofs)\.((?:[a-z]\w*\.)*[A-Z]\w*)\b")
CONTROLS = 100000  # variants with this number or a larger one are unedited


def fail(text):
    """Prints why nothing could be tried, and exits with 2."""
    print(f"wrong_definitions: {text}")
    sys.exit(2)


def read_crates(root):
    """Returns, for each crate of crates.txt, the libraries that it names."""
    lines = (line.split("#")[0].partition(":") for line in (root / "crates.txt").read_text(encoding="utf-8").split("\n"))
    return {name.split()[0]: rest.split() for name, colon, rest in lines if colon}


def below(crates, names):
    """Returns the crates and those of the repository that they use, directly or not, the used ones first."""
    seen = []

    def visit(name):
        for other in crates[name]:
            if other in crates:
                visit(other)
        if name not in seen:
            seen.append(name)

    for name in names:
        visit(name)
    return seen


def path_of(name):
    """Returns the path of a module's file below specs/ or proofs/."""
    return name.replace(".", "/") + ".antt"


def toolchain():
    """Returns the folder of the Rattle kit."""
    return pathlib.Path(os.path.realpath(shutil.which("rt") or fail("no rt"))).parent.parent


class Refusal:
    """A declaration that the checker refused, or did not try because it uses a refused one. A file NAME_vN is the variant N of NAME."""

    def __init__(self, crate, part, file, text):
        self.crate, self.part = crate, part
        self.file, _, number = file.partition("_v")
        self.variant = int(number) if number else None
        named = re.match(r"`([^`]+)`", text)
        self.declaration = named[1] if named else ""
        self.blocked = bool(re.search(r"was not (?:admitted|checked)|could not be (?:loaded|checked)|has errors", text.split("\n")[0]))

    def where(self):
        return f"{self.crate}/{self.part}/{self.file}.antt" + (f" `{self.declaration}`" if self.declaration else "")

    def among(self, patterns):
        return self.part == "proofs" and any(fnmatch.fnmatchcase(self.file, pattern) for pattern in patterns)


def refusals(said):
    """Returns what the checker refused, each declaration once."""
    found = {}
    for match in re.finditer(r"(?m)^(?:\S*/)?(\w+)/(specs|proofs)/([^\s:]+)\.antt:\d+:\d+: error:? ?(.*(?:\n  .*)*)", said):
        refusal = Refusal(*match.groups())
        found.setdefault((refusal.variant, refusal.where()), refusal)
    return list(found.values())


class Trial:
    """Copies of the crates in a temporary folder, and the checker's output for them."""

    def __init__(self, root, crates, scratch, logs):
        self.root, self.crates, self.scratch, self.logs = root, crates, pathlib.Path(scratch), logs
        self.kept = self.scratch / "kept"
        self.kept.mkdir()
        self.texts, self.uses = {}, {}
        for part in ("specs", "proofs"):
            for path in root.glob(f"crates/*/{part}/**/*.antt"):
                crate, _, *names = path.relative_to(root / "crates").with_suffix("").parts
                module = (crate, part, ".".join(names))
                self.texts[module] = path.read_text(encoding="utf-8")
                self.uses[module] = set(NAMED.findall(self.texts[module]))

    def all_used(self, modules):
        """Returns these modules and all that they use, directly or not, of specs/ and of proofs/."""
        found, waiting = set(), list(modules)
        while waiting:
            module = waiting.pop()
            if module not in found and module in self.texts:
                found.add(module)
                waiting += self.uses[module]
        return found

    def needed(self, places):
        """Returns the files of proofs/ that these places use, themselves included: pairs of crate and name. Other proofs are not needed."""
        for crate, name in places:
            if (crate, "proofs", name) not in self.texts:
                fail(f"there is no crates/{crate}/proofs/{path_of(name)}")
        used = self.all_used((crate, "proofs", name) for crate, name in places)
        return {(crate, name) for crate, part, name in used if part == "proofs"}

    def between(self, place, edited):
        """Returns the modules that the place uses and that use an edited one, including the edited ones: those that the edit changes for
        the place. Empty if the place does not use them."""
        used = self.all_used([(place[0], "proofs", place[1])])
        return {module for module in used if edited & self.all_used([module])}

    def lay_out(self, folder, names, files):
        """Copies the crates, with src/ cut down to its types and with these files of proofs/."""
        for crate in names:
            source = self.root / "crates" / crate
            if (source / "specs").is_dir():
                shutil.copytree(source / "specs", folder / crate / "specs")
            for path in (source / "src").rglob("*.rt"):
                copy = folder / crate / path.relative_to(source)
                copy.parent.mkdir(parents=True, exist_ok=True)
                copy.write_text(types_only(path.read_text(encoding="utf-8")), encoding="utf-8")
            (folder / crate / "proofs").mkdir(parents=True)
            for name in sorted(name for other, name in files if other == crate):
                copy = folder / crate / "proofs" / path_of(name)
                copy.parent.mkdir(parents=True, exist_ok=True)
                shutil.copy(source / "proofs" / path_of(name), copy)
                self.list_module(folder, crate, "proofs", name)
        (folder / "top" / "src").mkdir(parents=True)
        (folder / "top" / "src" / "lib.rt").write_text("// Nothing: what is checked are the libraries.\n", encoding="utf-8")

    def list_module(self, folder, crate, part, name):
        """Adds a module of a copy to the list that it belongs to: Lib.antt, or that of its folder. Lib.antt lists a folder unless it has
        the name of a module of src/."""
        above, _, last = name.rpartition(".")
        lists = folder / crate / part / path_of(above or "Lib")
        if above and not lists.exists() and not (folder / crate / "src" / f"{above.replace('.', '/')}.rt").exists():
            self.list_module(folder, crate, part, above)
        with open(lists, "a", encoding="utf-8") as listed:
            listed.write(f"pub mod {last}\n")

    def check(self, folder, names, kept):
        """Runs the checker on a copy. Returns its status and its output."""
        kit = toolchain()
        words = [f"{kit}/bin/rattle", "check", "--crate-name", "top", "top/src/lib.rt"]
        for crate in names:
            words += ["--lib", f"{crate}:{','.join(['core', 'std', *self.crates[crate]])}={crate}/src/lib.rt"]
        for name in sorted({"core", "std", *(other for crate in names for other in self.crates[crate] if other not in self.crates)}):
            words += ["--extern", f"{name}={kit}/rlibs/{name}.rlib"]
        words += ["-L", f"dependency={kit}/rlibs", "--antt-project", f"{kit}/rattle/logic/antt-project.json"]
        words += ["--logic-built", f"{kit}/logic_built", "--incremental", str(kept)]
        done = subprocess.run(words, cwd=folder, stdin=subprocess.DEVNULL, stdout=subprocess.PIPE, stderr=subprocess.STDOUT)
        return done.returncode, done.stdout.decode("utf-8", "replace")

    def control(self, places):
        """Checks the unedited copy with all that the places use, and keeps its modules."""
        files = self.needed(places)
        names = below(self.crates, sorted({crate for crate, _ in files}, key=list(self.crates).index))
        folder = self.scratch / "control"
        self.lay_out(folder, names, files)
        status, said = self.check(folder, names, self.kept)
        shutil.rmtree(folder)
        if status != 0:
            print("\n".join(line for line in said.split("\n") if "error" in line)[:3000] or said[-3000:])
            fail("the unedited copy is not accepted, so that a refusal would show nothing")

    def run(self, crates, places, edit, log):
        """Checks a copy of these crates and of what the places use, after `edit` has changed it, with the modules that were kept. Returns
        what is wrong with the edit or with the run, or the refusals."""
        files = self.needed(places)
        names = below(self.crates, [crate for crate in self.crates if crate in crates or any(crate == other for other, _ in files)])
        folder = pathlib.Path(tempfile.mkdtemp(dir=self.scratch))
        try:
            self.lay_out(folder / "crates", names, files)
            bad = edit(folder / "crates")
            if bad:
                return bad
            # the checker replaces an old file by a new one and does not write into it, so links are enough
            shutil.copytree(self.kept, folder / "kept", copy_function=os.link)
            status, said = self.check(folder / "crates", names, folder / "kept")
        finally:
            shutil.rmtree(folder, ignore_errors=True)
        if self.logs:
            self.logs.mkdir(parents=True, exist_ok=True)
            (self.logs / f"{log}.log").write_text(said, encoding="utf-8")
        found = refusals(said)
        if status not in (0, 1) or (status == 1 and not found):
            return f"the checker ended with status {status}: {said.strip()[-400:]}"
        return found

    def alone(self, entry, places):
        """Tries one entry by itself, under the files' own names. Returns the refusals, or what is wrong with the entry."""

        def edit(folder):
            changed = entry.changed(self.texts)
            if isinstance(changed, str):
                return changed
            for (crate, part, name), text in changed.items():
                (folder / crate / part / path_of(name)).write_text(text, encoding="utf-8")
            return None

        return accepted_specs(self.run({entry.crate}, places, edit, entry.number))

    def put_variant(self, folder, number, texts):
        """Adds a variant of these modules to a copy: files NAME_vN, which use each other by these names and other modules unchanged."""
        for (crate, part, name), text in texts.items():
            text = NAMED.sub(lambda use: f"{use[0]}_v{number}" if use.groups() in texts else use[0], text)
            (folder / crate / part / path_of(f"{name}_v{number}")).write_text(text, encoding="utf-8")
            self.list_module(folder, crate, part, f"{name}_v{number}")

    def together(self, entries):
        """Tries entries in one run: for each a variant of the modules between its place and its edited files; and for each such set of
        modules an unedited variant. If that is not accepted, its entries are tried one by one. Returns, by the entries' numbers, the
        refusals or what is wrong with an entry."""
        results, variants, controls = {}, {}, {}
        for entry in entries:
            changed = entry.changed(self.texts)
            if isinstance(changed, str):
                results[entry.number] = changed
            else:
                modules = self.between(entry.at, set(changed))
                variants[entry.number] = {module: changed.get(module, self.texts[module]) for module in modules}
                controls.setdefault(frozenset(modules), CONTROLS + len(controls))

        def edit(folder):
            for number, texts in variants.items():
                self.put_variant(folder, number, texts)
            for modules, number in controls.items():
                self.put_variant(folder, number, {module: self.texts[module] for module in modules})

        found = self.run({entry.crate for entry in entries}, [entry.at for entry in entries], edit, f"from-{entries[0].number}")
        refused = set() if isinstance(found, str) else {refusal.variant for refusal in found}
        for entry in entries:
            if entry.number in results:
                continue
            if isinstance(found, str) or None in refused or controls[frozenset(variants[entry.number])] in refused:
                results[entry.number] = self.alone(entry, [entry.at])
            else:
                results[entry.number] = accepted_specs([refusal for refusal in found if refusal.variant == entry.number])
        return results


def accepted_specs(found):
    """Returns the refusals of an entry, or that a definition is not accepted, in which case the refusal shows nothing."""
    if not isinstance(found, str):
        for refusal in found:
            if refusal.part == "specs" or refusal.file.startswith(("statements/", "tables/")):
                return f"a definition is not accepted: {refusal.where()}"
    return found
