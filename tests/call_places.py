"""Lists the places that a public call has in the repository, and says which a call lacks.

    python3 tests/call_places.py CALL           each kind of place of the call, with its files
    python3 tests/call_places.py --files CALL   the files of these places: those touched by hand, and those that scripts write
    python3 tests/call_places.py --all          a line for each call that lacks a place, or for which no file has an optional one;
                                                fails if a place is lacking that each call must have

A call is a public function of a crate whose calls are exported (crates.txt): CALL is its name, `and_not_at` or `Bitmap::slice`, with its
module before it if two have the name. The kinds are those of kinds_in_proofs.py and kinds_in_uses.py. Which apply to a call is decided
from the sources: from its arguments and its answer, the definitions that its contract cites, the numbers listed for it, its export. Where
two calls are read by one definition, as `push` and `push_mut`, what is shown of one by this definition counts for both."""
import sys

import kinds_in_proofs
import kinds_in_uses
from call_kinds import CALLS, KINDS, MAY, MUST, OTHERS

# These modules add their kinds to KINDS.
assert kinds_in_proofs and kinds_in_uses

# What the sources do not decide: the call or crate, the kind that it need not have, and why.
NOT_NEEDED = {
    ("superseding_part", "histories"): "it chooses one of two masks and makes no flags: no call of a history",
    ("superseding", "histories"): "it chooses one of two masks and makes no flags: no call of a history",
    ("dispatch", "edges"): "its limits are those of the calls of masks that it makes",
    ("activity", "edges"): "its only limits are the widths 1 and 256, which its wrong answers and witnesses have",
    ("AlignedBitmapSlice::new", "method"): "the split depends on the address of the bytes, which the types of the crate do not show",
    ("split_at_unchecked", "method"): "two spans of the same bytes are two slices of a `Bitmap`",
    ("BitChunksExact::new", "method"): "its cursor is that of `BitChunks::new` at start 0",
    ("count_zeros", "method"): "the zeros of a `Bitmap` are those of `unset_bits`",
    ("TrueIdxIter::next", "method"): "the crate's iterator takes its positions by `next_chunk`",
}

# What calls lack today, with what is to be written; an entry goes when the place is filled.
OPEN = {}


def reason(table, call, kind):
    return table.get((call.name, kind.key)) or table.get((call.crate, kind.key))


def lacking(call, level):
    """Returns the kinds of a level that apply to a call and of which no file has it."""
    return [kind for kind in KINDS
            if kind.level == level and kind.applies(call) and not reason(NOT_NEEDED, call, kind) and not kind.find(call)]


def show(call):
    for kind in KINDS:
        why = reason(NOT_NEEDED, call, kind)
        if not kind.applies(call):
            state = "does not apply"
        elif why:
            state = f"not needed: {why}"
        else:
            state = " ".join(kind.find(call)) or ("LACKING" if kind.level == MUST else "none")
        print(f"{kind.says}{' (written)' if kind.written(call) else ''}: {state}")


def show_files(call):
    hand, optional, written = set(), set(), set()
    for kind in KINDS:
        if kind.applies(call) and not kind.shared:
            (written if kind.written(call) else hand if kind.level == MUST else optional).update(kind.find(call))
    hand -= written
    optional -= hand | written
    said = (("", hand), ("not of each call: ", optional), ("written: ", written))
    print("\n".join(f"{before}{path}" for before, paths in said for path in sorted(paths)))
    by_hand = f"{len(hand | optional)} files by hand, {len(optional)} of them such as not each call has"
    print(f"{call.name}: {by_hand}; {len(written)} that scripts write")


def show_all():
    """Prints what calls lack. Returns whether one lacks a place that it must have and that is not open."""
    failing, met = 0, set()
    for call in CALLS + OTHERS:
        must, may = lacking(call, MUST), lacking(call, MAY)
        known = [kind for kind in must if reason(OPEN, call, kind)]
        met.update((name, kind.key) for kind in known for name in (call.name, call.crate))
        new = [kind for kind in must if kind not in known]
        failing += len(new)
        said = (("LACKS", new), ("open:", known), ("none:", may))
        parts = [f"{word} {', '.join(kind.key for kind in found)}" for word, found in said if found]
        if parts:
            print(f"{call.crate} {call.key}: {'; '.join(parts)}")
    stale = [f"{name}: {key} is there; take it out of OPEN" for name, key in OPEN if (name, key) not in met]
    print("\n".join(stale + [f"{len(CALLS)} calls and {len(OTHERS)} other public functions, {failing} places lacking"]))
    return bool(failing)


def main():
    if "--all" in sys.argv:
        return show_all()
    for word in sys.argv[1:]:
        if word != "--files":
            found = [call for call in CALLS + OTHERS if word in (call.key, call.name)] or [call for call in CALLS if word == call.short]
            if len(found) != 1:
                sys.exit(f"{word}: {', '.join(call.key for call in found) or 'no such call'}")
            (show_files if "--files" in sys.argv else show)(found[0])
    return 0


if __name__ == "__main__":
    sys.exit(main())
