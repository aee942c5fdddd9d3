#!/usr/bin/env python3
"""Tries wrong definitions: a table or a theorem must refuse each, not only laws that serve the functions' proofs.

    tests/wrong_definitions.py [--alone] [--find [--tables]] [--open] [--jobs N] [--logs DIR]
                               [CRATE | DEFINITION ..]
    tests/wrong_definitions.py --page [--write]

A contract states that a call equals a definition, so a wrong definition makes a wrong library provable: code and laws would be
changed with it. Computed tables and theorems that state what the definition is for rule it out. The wrong definitions are in
tests/wrong/CRATE.txt, with an empty line between two; each has these lines:

    definition: NAME      what is edited
    says: TEXT            what is wrong, in plain words
    file: PATH            the file, below crates/CRATE; if left out, that of the entry before it
    old: TEXT             text that is in the file exactly once; `\\n` for a line's end
    new: TEXT             the wrong text; more pairs of `old:` and `new:` may follow. What it names and the file does not import is imported
    table: CRATE/FILE     crates/CRATE/proofs/FILE.antt is a computed table, of which a row is then false; or
    theorem: CRATE/FILE NAME    the proof of this theorem, which states the definition in plain words, then fails

The method. A law, a theorem or a table needs the definitions and the types, not the functions. So each crate is copied with src/ cut
down to its types, with specs/, and with those files of proofs/ that the table or the theorem uses. The copy is first checked
unedited, and must be accepted. Then the wrong definitions are tried, several in one run, with the modules that were checked: the files
that an edit changes for its place, the edited file and those that use it, are added to the copy under other names (NAME_vN), once with
the edit and once without it. The latter must be accepted, else the entry is tried by itself. What is printed for an entry:

    refused at PLACE      the table or theorem of the entry refuses it
    ELSEWHERE             it is refused, but not there
    NOT REFUSED           nothing that was checked refuses it
    BAD                   the text is not in the file exactly once, or a definition is not accepted: it shows nothing
    OPEN                  the entry has no place yet

    --page        compares the table of docs/CONTRACTS.md with the entries, or with --write writes it anew; nothing is tried
    --alone       tries each entry in a run of its own, under the files' own names
    --open        tries only entries that have no place
    --find        tries all tables and theorems of all crates, and prints what refuses; with --write an entry that has no place
                  gets the first table that refuses it, or the first theorem
    --tables      with --find: tries only the tables, which takes a second or two for each entry
    --jobs N      how many are tried at a time; otherwise RT_JOBS, or the number of processors, at most 4
    --logs DIR    keeps the output of the checker
    --root DIR    reads another copy of the repository

The status is 1 if an entry was not refused as it must be or is open, and 2 if the unedited copy is not accepted."""
import argparse
import collections
import concurrent.futures
import functools
import os
import pathlib
import re
import sys
import tempfile
import time

from definition_trial import Trial, below, fail, read_crates

ROOT = pathlib.Path(__file__).resolve().parent.parent
TABLES = ("computed/*",)
THEOREMS = ("theorems/*",)
SLOW = ("computed/GoesOn",)  # a table that takes longer than all others
TOGETHER = 20
NAME = r"[^\W\d][\w'-]*"


def place_of(text):
    """Returns the crate and the module of a place: CRATE/FILE, or CRATE/FOLDER/FILE, before a theorem's name."""
    crate, _, file = text.split(" ")[0].partition("/")
    return crate, file.replace("/", ".")


class Entry:
    """A wrong definition: its file, what is wrong, its pairs of texts, and the place that must refuse it."""

    def __init__(self, crate, lines, file, number):
        self.crate, self.number, self.pairs, self.file, self.lines = crate, number, [], file, lines
        self.definition = self.says = self.place = ""
        self.theorem = False
        old = None
        for line in lines:
            key, _, text = line.partition(":")
            text = text.removeprefix(" ").replace("\\n", "\n")
            if key == "definition":
                self.definition = text
            elif key == "says":
                self.says = text
            elif key == "file":
                self.file = text
            elif key == "old":
                old = text
            elif key == "new":
                self.pairs.append((self.file, old, text))
            elif key in ("table", "theorem"):
                self.place, self.theorem = text, key == "theorem"
            else:
                fail(f"tests/wrong/{crate}.txt: no such line: {line}")
        self.name = f"{crate} {self.definition} ({self.says})"
        if not self.definition or not self.says or not self.pairs or old is None:
            fail(f"tests/wrong/{crate}.txt: an entry lacks a line: {self.name}")

    @property
    def at(self):
        """Returns the crate and the file of its place."""
        return place_of(self.place)

    def changed(self, texts):
        """Returns the modules that it edits with their new texts, from all texts by module; or what is wrong with the entry."""
        found, wrong = {}, collections.defaultdict(list)
        for file, old, new in self.pairs:
            part, *names = file.removesuffix(".antt").split("/")
            module = (self.crate, part, ".".join(names))
            text = found.get(module, texts.get(module, ""))
            if text.count(old) != 1:
                return f"its text is in {file} {text.count(old)} times: {old[:90]}"
            found[module] = text.replace(old, new)
            wrong[module].append(new)
        return {module: with_imports(module, text, wrong[module]) for module, text in found.items()}


# ---- imports


def names_of(text):
    """Returns the names and operators in a text, without its comments."""
    text = re.sub(r"(?m)(?:^|(?<=\s))--.*$", "", text)
    return set(re.findall(NAME, text)) | {f"◌{sign}◌" for sign in re.findall(r"(?<=\s)[^\w\s(){}\[\].,;'`]+(?=\s)", text)} | \
        ({"[]"} if "[]" in text else set())


@functools.lru_cache(maxsize=None)
def importable(crate, root):
    """Returns from which modules the definitions of a crate import a name, each with how often; and what they define themselves."""
    found = collections.defaultdict(collections.Counter)
    home = root / "crates" / crate
    for path in [*sorted(home.glob("specs/**/*.antt")), *sorted(home.glob("proofs/statements/*.antt"))]:
        module = ".".join(path.relative_to(home).with_suffix("").parts)
        text = path.read_text(encoding="utf-8")
        for source, names in re.findall(r"(?m)^(?:unfoldable )?(?:pub )?use (Rattle\.\S+|mathlib\.\S+)\.\{([^}]*)\}$", text):
            for name in names.split(","):
                found[name.strip()][source] += 1
        for name in re.findall(rf"(?m)^(?:unfoldable |abbrev )?pub (?:record |data )?({NAME}) ", text):
            found[name][f"Rattle.{crate}.{module}"] += 1000
    return found


@functools.lru_cache(maxsize=None)
def importable_below(crate, root):
    """Returns the same of the crates below, for names that a crate's own definitions do not import."""
    found = collections.defaultdict(collections.Counter)
    for other in below(read_crates(root), [crate]):
        if other != crate:
            for name, sources in importable(other, root).items():
                found[name].update(sources)
    return found


def with_imports(module, text, wrong):
    """Returns the text of an edited module with an import for each name of the wrong texts that it neither imports nor defines."""
    crate, part, own = module
    uses = re.findall(r"(?m)^(?:unfoldable )?(?:pub )?use \S+\.\{([^}]*)\}$", text)
    here = {name.split(" as ")[-1].strip() for names in uses for name in names.split(",")}
    here |= set(re.findall(rf"(?m)^(?:unfoldable |abbrev )?pub (?:record |data )?({NAME}) ", text))
    known, lines = importable(crate, ROOT), []
    for name in sorted(names_of("\n".join(wrong)) - here):
        known_here = known.get(name) or importable_below(crate, ROOT).get(name, collections.Counter())
        sources = [source for source, _ in known_here.most_common() if source != f"Rattle.{crate}.{part}.{own}"]
        if sources and len(name) > 1:
            lines.append(f"use {sources[0]}.{{{name}}}")
    last = list(re.finditer(r"(?m)^(?:unfoldable )?(?:pub )?use .*$", text))
    if not lines or not last:
        return text
    return text[: last[-1].end()] + "\n" + "\n".join(lines) + text[last[-1].end() :]


def entries(root, crates):
    found = []
    for path in sorted((root / "tests" / "wrong").glob("*.txt"), key=lambda path: list(crates).index(path.stem)):
        file = ""
        for block in re.split(r"\n\n+", path.read_text(encoding="utf-8").strip()):
            lines = [line for line in block.split("\n") if not line.startswith("#")]
            if lines:
                found.append(Entry(path.stem, lines, file, len(found)))
                file = found[-1].file
    return found


def judge(entry, found):
    """Returns whether an entry passes, and what to print."""
    if isinstance(found, str):
        return False, f"BAD: {found}"
    refused = [refusal for refusal in found if not refusal.blocked]
    file, _, name = entry.place.partition(" ")
    for refusal in refused:
        if f"{refusal.crate}/{refusal.file}" == file and name in ("", refusal.declaration):
            return True, f"refused at {refusal.where()}"
    if refused:
        return False, f"ELSEWHERE: refused at {refused[0].where()}, and it must be at {entry.place}"
    return False, "NOT REFUSED"


def sort_out(found):
    """Returns a line with what refuses an edit when all tables and theorems were tried, the tables first."""
    if isinstance(found, str):
        return f"BAD: {found}"
    tables = [r.where() for r in found if not r.blocked and r.among(TABLES)]
    theorems = [r.where() for r in found if not r.blocked and not r.among(TABLES) and r.among(THEOREMS)]
    laws = [r.where() for r in found if not r.blocked and not r.among(TABLES + THEOREMS)]
    blocked = [r.where() for r in found if r.blocked and r.among(TABLES + THEOREMS)]
    head = "TABLE" if tables else "THEOREM" if theorems else "LAW" if laws else "SURVIVES"
    return f"{head}: {', '.join(tables)} | {', '.join(theorems[:4])} | laws {', '.join(laws[:3])} ({len(laws)}) | blocked {len(blocked)}"


def give_place(root, entry, found):
    """Writes what refuses an entry into the list of its crate: a table, or else a theorem."""
    refused = [r for r in found if not r.blocked] if not isinstance(found, str) else []
    tables, theorems = [r for r in refused if r.among(TABLES)], [r for r in refused if r.among(THEOREMS)]
    path, block = root / "tests" / "wrong" / f"{entry.crate}.txt", "\n".join(entry.lines)
    if tables:
        line = f"table: {tables[0].crate}/{tables[0].file}"
    elif theorems:
        line = f"theorem: {theorems[0].crate}/{theorems[0].file} {theorems[0].declaration}"
    else:
        return
    text = path.read_text(encoding="utf-8")
    path.write_text(text.replace(block, f"{block}\n{line}", 1), encoding="utf-8")


def page_lines(found):
    """Yields the rows of the table of docs/CONTRACTS.md: for each file the definitions, how many wrong ones of each, and what refuses."""
    files = {}
    for entry in found:
        file = f"{entry.crate}/{entry.pairs[0][0]}" if len({pair[0] for pair in entry.pairs}) == 1 else "several files"
        names, places = files.setdefault(file, ({}, {}))
        names[entry.definition] = names.get(entry.definition, 0) + 1
        place = entry.place.split(" ")[0] or "open"
        places[place] = places.get(place, 0) + 1
    for file, (names, places) in files.items():
        tried = ", ".join(f"`{name}` {n}" if n > 1 else f"`{name}`" for name, n in names.items())
        refused = ", ".join(f"`{place}` {n}" for place, n in sorted(places.items(), key=lambda pair: -pair[1]))
        yield f"| `{file}` | {tried} | {refused} |"


def page(found, write):
    """Compares the table of the page with the entries, or writes it. Returns the status."""
    path = ROOT / "docs" / "CONTRACTS.md"
    text = path.read_text(encoding="utf-8")
    head = "| file | definitions, and how many wrong ones of each | refused by |\n|---|---|---|\n"
    before, after = text.split(head)
    rest = after[after.index("\n\n") :] if "\n\n" in after else "\n"
    new = before + head + "\n".join(page_lines(found)) + rest
    if write:
        path.write_text(new, encoding="utf-8")
    elif new != text:
        print("wrong_definitions: the table of docs/CONTRACTS.md differs from tests/wrong: see --page --write")
        return 1
    tables, theorems = sum(bool(e.place) and not e.theorem for e in found), sum(e.theorem for e in found)
    said = f"{tables} with a table, {theorems} with a theorem, {len(found) - tables - theorems} open"
    print(f"wrong_definitions: {len(found)} entries, {said}; as in docs/CONTRACTS.md")
    return 0


def main():
    ask = argparse.ArgumentParser(prog="tests/wrong_definitions.py", description=__doc__.split("\n")[0])
    ask.add_argument("names", nargs="*", metavar="CRATE | DEFINITION")
    ask.add_argument("--page", action="store_true")
    ask.add_argument("--write", action="store_true")
    ask.add_argument("--open", action="store_true")
    ask.add_argument("--find", action="store_true")
    ask.add_argument("--tables", action="store_true")
    ask.add_argument("--alone", action="store_true")
    ask.add_argument("--jobs", type=int, default=int(os.environ.get("RT_JOBS") or min(4, os.cpu_count() or 1)))
    ask.add_argument("--logs", type=pathlib.Path)
    ask.add_argument("--root", type=pathlib.Path, default=ROOT)
    options = ask.parse_args()
    began = time.time()
    crates = read_crates(options.root)
    chosen = entries(options.root, crates)
    if options.page:
        return page(chosen, options.write)
    if options.names:
        chosen = [entry for entry in chosen if entry.crate in options.names or entry.definition in options.names]
    if options.open:
        chosen = [entry for entry in chosen if not entry.place]
    if not chosen:
        fail("there is no such entry")
    everywhere = [place_of(f"{path.parts[-4]}/{path.parts[-2]}/{path.stem}")
                  for pattern in (TABLES if options.tables else TABLES + THEOREMS)
                  for path in sorted(options.root.glob(f"crates/*/proofs/{pattern}.antt"))
                  if not (options.tables and f"{path.parts[-2]}/{path.stem}" in SLOW)]
    of = {e.number: everywhere if options.find else [e.at] for e in chosen if e.place or options.find}
    failed = 0
    if not options.find:
        for entry in (e for e in chosen if not e.place):
            failed += 1
            print(f"{entry.name}: OPEN")
        chosen = [e for e in chosen if e.place] or fail("there is no entry with a place")
    chosen.sort(key=lambda e: (e.place, [pair[0] for pair in e.pairs], e.number))
    runs = [chosen[at : at + TOGETHER] for at in range(0, len(chosen), TOGETHER)]
    with tempfile.TemporaryDirectory(prefix="wrong.") as scratch:
        os.environ["TMPDIR"] = scratch = os.path.realpath(scratch)
        trial = Trial(options.root, crates, scratch, options.logs and options.logs.resolve())
        trial.control(sorted({place for places in of.values() for place in places}))
        print(f"the unedited copy is accepted ({time.time() - began:.0f} s)", flush=True)
        with concurrent.futures.ThreadPoolExecutor(max(1, options.jobs)) as pool:
            if options.find:
                for entry, found in zip(chosen, pool.map(lambda e: trial.alone(e, of[e.number]), chosen)):
                    print(f"{entry.name}: {sort_out(found)}", flush=True)
                    if options.write and not entry.place:
                        give_place(options.root, entry, found)
            else:
                try_run = (lambda run: {e.number: trial.alone(e, [e.at]) for e in run}) if options.alone else trial.together
                for run, results in zip(runs, pool.map(try_run, runs)):
                    for entry in run:
                        good, line = judge(entry, results[entry.number])
                        failed += not good
                        print(f"{entry.name}: {line}", flush=True)
    if not options.find:
        definitions = len({(entry.crate, entry.definition) for entry in chosen})
        theorems = sum(entry.theorem for entry in chosen)
        print(f"wrong_definitions: {len(chosen)} of {definitions} definitions, {len(chosen) - theorems} to be refused by a table, "
              f"{theorems} by a theorem; {failed} not as they must be ({time.time() - began:.0f} s)")
    return 1 if failed else 0


if __name__ == "__main__":
    sys.exit(main())
