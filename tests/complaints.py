"""Tries scripts that compare sources with each other: each must complain of a copy of the repository with one edit.

    python3 tests/complaints.py

An entry of EDITS has the script with its options, a file of the repository, a text that is in it exactly once, the text in its place, and
what a line of the script must then contain. The script must have no complaint of the copy before the edit."""
import os
import pathlib
import shutil
import subprocess
import sys
import tempfile

ROOT = pathlib.Path(__file__).resolve().parent.parent
READ = ("crates/*/src/**/*.rt", "crates/*/specs/**/*.antt", "crates/*/proofs/statements/*.antt", "crates/*/proofs/tables/*.antt")
READ += ("crates/*/proofs/computed/*.antt", "crates/*/proofs/theorems/*.antt", "crates/masks/proofs/refusal/*.antt")
PAGES = ("docs/*.md", "README.md", "crates.txt", "Cargo.toml", "tests/*.py", "tests/plants", "tests/plants.txt", "include/*")
PAGES += ("bindings/rust/src/**/*.rs", "bindings/rust/Cargo.toml", "Cargo.lock")
READ += ("crates/*/CALLING.md", "crates/*/proofs/calling/*.antt", "crates/uses/proofs/**/*.antt")

EDITS = (
    (
        "layout.py",
        "crates/words/src/nth.rt",
        "//! ",
        "// ",
        "crates/words/src/nth.rt: the first line is no comment //!",
    ),
    (
        "layout.py",
        "docs/REFERENCE.md",
        "in the project's own words.",
        "by pap" "er 02.",
        "docs/REFERENCE.md: line 3 cites 'pap" "er 02'",
    ),
    (
        "calls_page.py",
        "crates/masks/proofs/statements/CountsUnseen.antt",
        "  -- `next_and_not`, whose second mask may be absent\n",
        "",
        "CountsUnseen.antt states 0 of 2 masks of next_and_not",
    ),
    (
        "calls_page.py",
        "crates/dispatch/proofs/statements/CountsUnseen.antt",
        "  -- `offer`\n",
        "",
        "CountsUnseen.antt states 0 of 2 masks of offer",
    ),
    (
        "calls_page.py",
        "crates/masks/proofs/statements/CountsUnseen.antt",
        "(λ x. pair_checks a a_bytes x bytes size) (λ x. pair_mask op",
        "(λ x. not_checks x bytes size) (λ x. pair_mask op",
        "CountsUnseen.antt states 1 of 2 masks of and",
    ),
    (
        "dispatch_calls.py",
        "crates/dispatch/specs/equations/Offer.antt",
        "use Rattle.masks.specs.equations.Answer.{",
        "use Rattle.masks.specs.Mask.{mask_checks}\nuse Rattle.masks.specs.equations.Answer.{",
        "Offer.antt: masks.specs.Mask.mask_checks is no definition of a combination or a search",
    ),
    (
        "dispatch_calls.py",
        "crates/dispatch/specs/Offer.antt",
        "use Rattle.masks.specs.Search.{nth_from}\n",
        "use Rattle.masks.specs.Search.{nth_from}\nuse Rattle.masks.specs.Mask.{mask_checks}\n",
        "Offer.antt: masks.specs.Mask.mask_checks is no definition of a combination or a search",
    ),
    (
        "dispatch_calls.py",
        "crates/dispatch/src/offer.rt",
        "use masks::next_and_not::next_and_not;\n",
        "use masks::next_and_not::next_and_not;\nuse masks::checks::check_mask;\n",
        "masks::checks::check_mask is no combination and no search",
    ),
    (
        "declarations.py",
        "include/refusals.txt",
        "15 NoPlaceForSerial later ",
        "15 NoPlaceForSerial ",
        "15 NoPlaceForSerial: no definition has its check",
    ),
    (
        "declarations.py",
        "crates/masks/proofs/statements/AnswerPlain.antt",
        "number SerialConflict ≡ 14",
        "number SerialConflict ≡ 13",
        "AnswerPlain.antt is not what the sources give",
    ),
    (
        "proof_rows.py",
        "crates/masks/proofs/theorems/Refusals.antt",
        "      and_not_at = λ a a_bytes b b_bytes i.",
        "      and_not_at = λ b a_bytes a b_bytes i.",
        "crates/masks/proofs/theorems/Refusals.antt: not what its statement or table gives",
    ),
    (
        "proof_rows.py",
        "crates/capi/proofs/statements/StepPlain.antt",
        "  pub refused-place : (place k : ℕ) (c : C) →",
        "  pub refused-place : (came k : ℕ) (c : C) →",
        "crates/capi/proofs/theorems/StepPlain.antt: not what its statement or table gives",
    ),
    (
        "histories_ties.py",
        "crates/histories/proofs/statements/History.antt",
        "after_freeze (freeze_bytes b buf) (freeze_of b buf)",
        "after_freeze (append_bytes (push_flag true) b buf) (freeze_of b buf)",
        "freeze: neither its contract nor that of its export states",
    ),
    (
        "histories_ties.py",
        "crates/histories/proofs/statements/History.antt",
        "after_try bytes (try_new_of bytes start n)",
        "after_try bytes (try_new_of bytes n start)",
        "try_new: neither its contract nor that of its export states",
    ),
    (
        "histories_ties.py",
        "crates/masks/specs/equations/Appends.antt",
        "  extend_opt_gather :",
        "  extend_reversed : List ℕ → Append\n  extend_opt_gather :",
        "the constructors of Append are",
    ),
    (
        "histories_ties.py",
        "crates/masks/src/builder.rt",
        "    pub fn push_mut(&mut self, buf: &mut [u8], flag: bool) -> Result<(), Refusal>\n        ensures",
        "    pub fn push_mut(&mut self, buf: &mut [u8], other: bool) -> Result<(), Refusal>\n        ensures",
        "push_mut: neither its contract nor that of its export states",
    ),
    (
        "versions.py",
        "docs/CHANGES.md",
        "## 0.1.0, ",
        "## 0.2.0, ",
        "docs/CHANGES.md: 0.2.0",
    ),
    (
        "calling_pages.py",
        "crates/uses/proofs/pits/pit_of/Answers.antt",
        "use Rattle.masks.proofs.calling.Accepted.{slice_accepted}",
        "use Rattle.masks.proofs.bitmap.MaskLaws.{slice_accepted}",
        "cites Rattle.masks.proofs.bitmap.MaskLaws, which no CALLING.md names",
    ),
    (
        "calling_pages.py",
        "crates/dispatch/src/reassign.rt",
        "    ensures flag { IfOk result",
        "    ensures answer { IfOk result",
        "crates/dispatch/CALLING.md is not what the sources say",
    ),
    (
        "plants --test",
        "tests/plants",
        "for it in (found - listed).elements()",
        "for it in (found - found).elements()",
        "not seen: a finding that is not listed, crate: x, place: T::f, finding: proves, plant: { Ok(0) }",
    ),
    (
        "plants --test",
        "tests/plants",
        "for it in (listed - found).elements()",
        "for it in (found - found).elements()",
        "words: not seen: a finding that is gone, crate: x, place: T::g, finding: proves, plant: { None }",
    ),
    (
        "plants --test",
        "tests/plants",
        "] * (now < least)",
        "] * (now < 1)",
        "not seen: a function fewer",
    ),
    (
        "plants --test",
        "tests/plants",
        "    if not last or last.group(1) != crate:\n",
        "    if not last:\n        return []\n    if last.group(1) != crate:\n",
        "not seen: a run that was cut off",
    ),
    (
        "plants --test",
        "tests/plants.txt",
        "crate: words\nfunctions: ",
        "crate: notes\nfunctions: ",
        "tests/plants.txt: notes is no library crate",
    ),
)


def copied(home):
    """Copies what the scripts read."""
    for pattern in READ + PAGES:
        for path in ROOT.glob(pattern):
            place = home / path.relative_to(ROOT)
            place.parent.mkdir(parents=True, exist_ok=True)
            shutil.copy(path, place)


def printed(home, script):
    """Runs a script of the copy with its options; returns its status and what it printed."""
    name, *options = script.split()
    environment = {**os.environ, "PYTHONDONTWRITEBYTECODE": "1"}
    words = [sys.executable, f"tests/{name}", *options]
    done = subprocess.run(words, cwd=home, env=environment, capture_output=True, text=True, check=False)
    return done.returncode, done.stdout + done.stderr


def tried(home, script, file, old, new, complaint):
    """Applies an edit to the copy, runs the script, and takes the edit back; returns what is wrong, if anything is."""
    path = home / file
    text = path.read_text(encoding="utf-8")
    if text.count(old) != 1:
        return f"the text is in the file {text.count(old)} times"
    path.write_text(text.replace(old, new), encoding="utf-8")
    status, said = printed(home, script)
    path.write_text(text, encoding="utf-8")
    if status == 0 or complaint not in said:
        return f"{script} ends with {status} and does not print: {complaint}"
    return None


def main():
    wrong = []
    with tempfile.TemporaryDirectory() as folder:
        home = pathlib.Path(folder)
        copied(home)
        for script in sorted({edit[0] for edit in EDITS}):
            status, said = printed(home, script)
            if status:
                wrong.append(f"{script} complains of the copy with no edit:\n{said}")
        for number, edit in enumerate(EDITS, 1):
            fault = None if wrong else tried(home, *edit)
            wrong += [f"edit {number} of {edit[1]}: {fault}"] if fault else []
    print("\n".join(wrong + [f"{len(EDITS)} edits of which a script must complain, {len(wrong)} complaints"]))
    return 1 if wrong else 0


if __name__ == "__main__":
    sys.exit(main())
