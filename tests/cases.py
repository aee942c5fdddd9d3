#!/usr/bin/env python3
"""Computes each answer of a case file again and compares:

    python3 tests/cases.py crates/cases/stdin

The answers are those of tests/reference.py. A difference is printed with its line; the exit status is 1 if there is one.

A line lends bytes (`x`, `y`, `z` to read, `o` to write), numbers (`i`) or ends (`e`), or is a request with its answer, `NAME ARGUMENT .. =
ANSWER ..`, and after `|` what each output holds after the call. A range has several values for some arguments, with commas, as `A..B` or as
`A..B+S`, and as its answer the number of calls and a checksum over all answers and outputs. `@K` means the last K numbers of the last
answer, `@` the bytes or the ends that the last call left, `+` an output that continues where the last call left it."""
import struct
import sys
from itertools import product

sys.dont_write_bytecode = True
import reference
from reference import AND, AND_NOT, Lent, MISSING, NOT, OPS, OR, OR_NOT, Refused, SELECT, WORD, XOR, activity_counts, activity_new, aligned
from reference import append, at_end, at_front, chunks_new, chunks_next, chunks_remainder, combine, count, count_of, extend_bitmap
from reference import extend_repeated, from_run_ends, full, gather, limited, merged, new_runs, next_chunk, next_run, next_true, nth_flag
from reference import num_intersections, over, piece, push_minutes, search, set_bit, slice_of, span_checks, split_at, superseding
from reference import superseding_bytes, take_leading, to_run_ends, true_new, word_checks, words_of, written, zeros
from request_names import shapes

SHOWN = 20


# The calls whose arguments the function of the model takes in another order, or that have no function of their name: the answer from the
# arguments and what is lent. A call that has an output returns it after its answer.


def sides(l):
    return l.x, l.y, l.z


def stretches(l, a, b, c):
    return [(l.x, a), (l.y, b), (l.z, c)]


def pair(op):
    return lambda l, first, second: combine(op, [(first, l.x), (second, l.y)], l.o)


def word_op(op):
    return lambda l, *words: [OPS[op](*(list(words) + [0, 0])[:3], 64)]


def run_of_minutes(first, step, many):
    return [first + k * step & WORD for k in range(many)]


def counting(of):
    return lambda l, *span: count(of, l.x, *span)


def of_two(l, a, b):
    return a, l.x, l.serials[0], b, l.y, l.serials[1]


def part_shown(part):
    return [len(part), taken(FIRST, output_symbols(part))]


OTHERS = {
    "load_padded_le_u64": lambda l: [piece(l.x, 0, 64)],
    "merge_reversed": lambda l, *a: [merged(*a)],
    "nth_set_bit_u32": lambda l, w, n: set_bit(w, n),
    "nth_set_bit_u64": lambda l, w, n: set_bit(w, n),
    "store_le_u64": lambda l, w: ([], over(l.o, words_of(w, 64))),
    "store_at": lambda l, at, w: ([], over(l.o, words_of(w, 64), min(at, len(l.o)))),
    "store_whole": lambda l, at, w: ([], over(l.o, words_of(w, 64), at) if at + 8 <= len(l.o) else l.o),
    "byte_word": lambda l, at: [piece(l.x, 8 * at, 64)],
    "word_from": lambda l, bit: [piece(l.x, bit, 64)],
    "flag_at": lambda l, bit: [piece(l.x, bit, 1)],
    "low_flags": lambda l, w, k: [w & full(min(k, 64))],
    "shr_or_zero": lambda l, w, k: [w >> min(k, 64)],
    "shl_or_zero": lambda l, w, k: [w << min(k, 64) & WORD],
    "concat_low": lambda l, a, k, b: [(a & full(min(k, 64)) | b << min(k, 64)) & WORD],
    "constant_word": lambda l, flag: [WORD * flag],
    "constant_flags": lambda l, flag, n: [full(min(n, 64)) * flag],
    "ones_in_word": lambda l, w: [w.bit_count()],
    "ones_below": lambda l, w, k: [(w & full(min(k, 64))).bit_count()],
    "none_from": lambda l, w, k: [int(w >> min(k, 64) == 0)],
    "leading_in_word": lambda l, flag, w, k: [at_front(w & full(min(k, 64)), min(k, 64), flag)],
    "trailing_in_word": lambda l, flag, w, k: [at_end(w & full(min(k, 64)), min(k, 64), flag)],
    "and_word": word_op(AND),
    "and_not_word": word_op(AND_NOT),
    "or_word": word_op(OR),
    "or_not_word": word_op(OR_NOT),
    "xor_word": word_op(XOR),
    "not_word": word_op(NOT),
    "select_word": word_op(SELECT),
    "combine_word": lambda l, op, p, q, r: [OPS[op](p, q, r, 64)],
    "combine": lambda l, op, a, b, c, n: ([], written(op, stretches(l, a, b, c), n, l.o)),
    "copy": lambda l, start, n: ([], written(OR, [(l.x, start)] * 3, n, l.o)),
    "fill": lambda l, flag, n: ([], written(OR_NOT if flag else AND, [(Lent(b""), 0)] * 3, n, l.o)),
    "fill_whole": lambda l, flag, n: ([], over(l.o, (b"\xff" if flag else b"\0") * 8 * min(n, len(l.o) // 8))),
    "copy_count": lambda l, start, n: ([count_of(OR, [(l.x, start)] * 3, n)], written(OR, [(l.x, start)] * 3, n, l.o)),
    "count_ones": lambda l, start, n: [count_of(OR, [(l.x, start)] * 3, n)],
    "count_ones_of": lambda l, op, a, b, c, n: [count_of(op, stretches(l, a, b, c), n)],
    "any_set": lambda l, op, a, b, c, n: [int(count_of(op, stretches(l, a, b, c), n) > 0)],
    "equal": lambda l, a, b, n: [int(count_of(XOR, stretches(l, a, b, 0), n) == 0)],
    "AlignedBitmapSlice::new": lambda l, *a: aligned(l.x, *a),
    "count_zeros": counting(zeros),
    "leading_zeros": counting(lambda x, n: at_front(x, n, 0)),
    "leading_ones": counting(lambda x, n: at_front(x, n, 1)),
    "trailing_zeros": counting(lambda x, n: at_end(x, n, 0)),
    "trailing_ones": counting(lambda x, n: at_end(x, n, 1)),
    "BitChunks::new": lambda l, *a: chunks_new(l.x, *a),
    "BitChunksExact::new": lambda l, n: chunks_new(l.x, 0, n),
    "BitChunks::next": lambda l, *a: chunks_next(l.x, *a),
    "remainder": lambda l, *a: chunks_remainder(l.x, *a),
    "split_at_unchecked": lambda l, *a: split_at(l.x, *a),
    "nth_set_bit_idx": lambda l, *a: search(l.x, *a, False),
    "nth_set_bit_idx_rev": lambda l, *a: search(l.x, *a, True),
    "BitmapBuilder::new": lambda l: [0, 0, 0],
    "push": lambda l, b, flag: append(b, l.o, [], 1, lambda: flag),
    "push_mut": lambda l, b, flag: append(b, l.o, [], 1, lambda: flag),
    "push_word_with_len_unchecked": lambda l, b, w, n: append(b, l.o, word_checks(w, n), n, lambda: w),
    "extend_constant": lambda l, b, n, flag: append(b, l.o, limited(n), n, lambda: full(n) * flag),
    "extend_from_slice": lambda l, b, *a: append(b, l.o, span_checks(l.x, *a), a[1], lambda: piece(l.x, *a)),
    "extend_each_repeated_from_slice_unchecked": lambda l, b, *a: extend_repeated(b, l.o, l.x, *a),
    "subslice_extend_from_bitmap": lambda l, b, mask, *a: extend_bitmap(b, l.o, mask, l.x, *a),
    "gather_extend_from_slice": lambda l, b, *a: gather(b, l.o, l.x, *a, l.i, True),
    "opt_gather_extend_from_slice": lambda l, b, *a: gather(b, l.o, l.x, *a, l.i, False),
    "Bitmap::new": lambda l: [0, 0, 0],
    "slice": lambda l, mask, *a: slice_of(mask, l.x, *a),
    "and": pair(AND),
    "and_not": pair(AND_NOT),
    "or": pair(OR),
    "or_not": pair(OR_NOT),
    "xor": pair(XOR),
    "not": lambda l, mask: combine(NOT, [(mask, l.x)], l.o),
    "select": lambda l, *masks: combine(SELECT, list(zip(masks, sides(l))), l.o),
    "select_constant": lambda l, a, b, flag: combine(SELECT, [(a, l.x), (b, l.y)], l.o, flag),
    "num_intersections_with": lambda l, a, b: num_intersections(a, l.x, b, l.y),
    "SlicesIterator::new": lambda l, mask: new_runs(mask, l.x),
    "SlicesIterator::next": lambda l, *a: next_run(l.x, *a),
    "BitmapIter::new": lambda l, start, n: chunks_new(l.x, start, n) if n else [0, 0, 0],
    "BitmapIter::next": lambda l, *a: nth_flag(l.x, *a, 0),
    "nth": lambda l, *a: nth_flag(l.x, *a),
    "take_leading_ones": lambda l, *a: take_leading(l.x, *a, 1),
    "take_leading_zeros": lambda l, *a: take_leading(l.x, *a, 0),
    "TrueIdxIter::new": lambda l, n, mask: true_new(n, mask, l.x),
    "TrueIdxIter::next": lambda l, *a: next_true(l.x, *a),
    "next_chunk": lambda l, *a: next_chunk(l.x, *a, l.i),
    "superseding_part": lambda l, a, b: superseding(*of_two(l, a, b)),
    "superseding": lambda l, a, b: superseding(*of_two(l, a, b))[3:],
    "superseding_bytes": lambda l, a, b: part_shown(superseding_bytes(*of_two(l, a, b))),
    "ActivityWindow::new": lambda l, width: activity_new(width),
    "push_minute": lambda l, record, word: push_minutes(l.o, record, [word]),
    "push_minutes": lambda l, record, *a: push_minutes(l.o, record, run_of_minutes(*a)),
    "counts": lambda l, record: activity_counts(l.x.data, record),
    "from_run_ends": lambda l, values, n: from_run_ends(l.e, values, l.x, n, l.o),
    "to_run_ends": lambda l, mask: to_run_ends(mask, l.x, l.e, l.o),
}


def plainly(name, arguments, output):
    """Returns how a call is asked by the function of the model of its name: each mask is followed by its bytes, a bare span by none, since
    its bytes come first; an output, of bytes or of numbers, comes last."""
    ask = getattr(reference, name.split("::")[-1], None)

    def answer(l, *values):
        row, lent = [l.x] if arguments[:1] == ["start"] else [], iter(sides(l))
        for kind, value in zip(arguments, values):
            row += [value, next(lent)] if kind in ("M", "OM") else [value]
        return ask(*row, *{"o": [l.o], "i": [l.i]}.get(output, []))

    return answer


# Of each call in the table of REQUESTS the kinds of its arguments, and the letters of its outputs.
SHAPES = shapes()
KINDS = {"M": "M", "OM": "O", "B": "B", "W": "W", "C": "nnn", "T": "nnnn"}
SPECS = {name: "".join(KINDS.get(kind, "n") for kind in arguments) for name, (arguments, _) in SHAPES.items()}
CALLS = {name: OTHERS.get(name) or plainly(name, *shape) for name, shape in SHAPES.items()}
OUTPUTS = {name: output.split(", ") if output else [] for name, (_, output) in SHAPES.items()}


# The serial of the record that a call returns comes before its three numbers: 0 for a new record; that of the builder or of the mask; the
# largest of the masks combined, each of which has one.

NEW = {"BitmapBuilder::new", "Bitmap::new", "new_zeroed", "try_new"}
OWN = {name for name, spec in SPECS.items() if spec[:1] == "B"} | {"slice", "unset_bits", "grid_row", "grid_column", "grid_transpose"}
OWN |= {"from_run_ends", "to_run_ends"}
COMBINED = {"and", "and_not", "or", "or_not", "xor", "not", "select", "select_constant"}


def with_serial(name, answer, serials):
    if len(answer) < 4 or name not in NEW | OWN | COMBINED:
        return answer
    serial = 0 if name in NEW else serials[0] if name in OWN else max(serials[: SPECS[name].count("M")])
    return [*answer[:-3], serial, *answer[-3:]]


# Lines.


def number(text):
    return int(text[1:], 16) if text[0] == "x" else int(text)


def token(text):
    return {"?": None, MISSING: MISSING}.get(text) if text in ("?", MISSING) else number(text)


def values(text):
    """Returns the values of an argument."""
    row = []
    for item in text.split(","):
        first, dots, end = item.partition("..")
        end, _, step = end.partition("+")
        row += range(number(first), number(end), number(step or "1")) if dots else [token(item)]
    return row


def bytes_in(pieces):
    row = [piece.partition("*") for piece in pieces]
    return b"".join(bytes.fromhex(data) * (int(many) if star else 1) for data, star, many in row)


def numbers_in(pieces):
    row = [piece.partition("*") for piece in pieces]
    return [int(n) for n, star, many in row for _ in range(int(many) if star else 1)]


def taken(h, symbols):
    """Returns the checksum h with the symbols added."""
    for symbol in symbols:
        h = h + symbol & WORD
        h ^= h << 13 & WORD
        h ^= h >> 7
        h ^= h << 17 & WORD
    return h


FIRST = 0xCBF29CE484222325


def symbols_of(answer):
    row = [len(answer)]
    for one in answer:
        row += (0, one) if type(one) is int else (1, 0) if one is None else (2, 0)
    return row


def output_symbols(out):
    if type(out) is list:
        return [number & 0xFFFFFFFF for number in out]
    padded = out + bytes(-len(out) % 8)
    return struct.unpack("<%dQ" % (len(padded) // 8), padded)


class Lents:
    """What is lent to one call, and the rest of each output, which is not lent."""


def arranged(spec):
    """Returns the number of arguments, and a function that groups them by their kinds."""
    at, parts = 0, []
    for kind in spec:
        one = {"n": "row[{0}]", "O": "row[{0} + 1 : {0} + 4] if row[{0}] else None"}.get(kind, "row[{0} : {0} + 3]")
        parts.append(one.format(at))
        at += {"n": 1, "O": 4}.get(kind, 3)
    return at, eval("lambda row: [%s]" % ", ".join(parts))


ARRANGED = {name: arranged(spec) for name, spec in SPECS.items()}


def held(after, before, out):
    """Returns whether an output, which was `before`, holds what its line says."""
    if after == "same":
        return out == before
    if after.startswith("#"):
        return number(after[1:]) == taken(FIRST, output_symbols(out))
    return out == (numbers_in if type(out) is list else bytes_in)(after.split(" "))


class Reader:
    def __init__(self):
        self.bytes = {letter: b"" for letter in "xyzo"}
        self.lists = {letter: [] for letter in "ie"}
        self.left, self.last, self.calls = {"o": b"", "e": []}, [], 0
        self.parts = {}

    def lend(self, letter, pieces):
        if letter in "ie":
            self.lists[letter] = self.left[letter] if pieces == ["@"] else numbers_in(pieces)
            return
        self.bytes[letter] = self.left["o"] if pieces == ["@"] else bytes_in(pieces)
        self.parts = {key: lent for key, lent in self.parts.items() if key[0] != letter}

    def part(self, letter, size):
        """Returns the first bytes of x, y or z as a Lent, which is made once."""
        if (letter, size) not in self.parts:
            self.parts[letter, size] = Lent(self.bytes[letter][:size])
        return self.parts[letter, size]

    def lents(self, name, sizes):
        l = Lents()
        l.x, l.y, l.z = [self.part(letter, sizes.get(letter)) for letter in "xyz"]
        l.serials = [sizes.get(letter, 0) for letter in "stu"]
        l.o = self.bytes["o"][: sizes.get("o")]
        l.i, l.e = [self.lists[letter][: sizes.get(letter)] for letter in "ie"]
        l.whole = [self.lists.get(letter, self.bytes["o"]) for letter in OUTPUTS[name]]
        l.rest = [whole[len(getattr(l, letter)) :] for letter, whole in zip(OUTPUTS[name], l.whole)]
        return l

    def call(self, name, row, l):
        """Makes one call. Returns its answer, and what each of its outputs then holds."""
        self.calls += 1
        letters = OUTPUTS[name]
        outs = []
        try:
            answer = CALLS[name](l, *ARRANGED[name][1](row))
            if letters and type(answer) is tuple:
                answer, *outs = answer
                outs = [out + rest for out, rest in zip(outs, l.rest)]
            answer = [0, *answer]
        except Refused as refusal:
            answer = [refusal.args[0], *refusal.args[1]]
            if letters:
                outs = [out + rest for out, rest in zip(refusal.args[2:], l.rest)] or l.whole
        answer = with_serial(name, answer, l.serials)
        self.last = answer
        for letter, out in zip(letters, outs):
            self.left[letter] = out
        return answer, outs

    def request(self, text):
        """Makes a request. Returns whether its answer is right, and what it should be."""
        asked, _, told = text.partition(" = ")
        if asked.startswith("+ "):
            self.lend("o", ["@"])
            asked = asked[2:]
        name, *words = asked.split(" ")
        rows, letters = [], []
        for word in words:
            if word[0] == "@":
                rows += [[one] for one in self.last[-int(word[1:]) :]]
            elif word[1:2] == ":":
                letters.append(word[0])
                rows.append(values(word[2:]))
            else:
                rows.append(values(word))
        assert len(rows) - len(letters) == ARRANGED[name][0], "the number of arguments"
        return (self.range if told[0] == "#" else self.single)(name, rows, letters, told)

    def choices(self, name, rows, letters):
        """Yields each choice of the values, the last one changing fastest, with what is lent."""
        many, lents = len(rows) - len(letters), {}
        for row in product(*rows):
            sizes = row[many:]
            if sizes not in lents:
                lents[sizes] = self.lents(name, dict(zip(letters, sizes)))
            yield row[:many], lents[sizes]

    def single(self, name, rows, letters, told):
        ((row, l),) = self.choices(name, rows, letters)
        answer, outs = self.call(name, row, l)
        answer_told, *afters = told.split(" | ")
        right = [token(word) for word in answer_told.split(" ")] == answer and len(outs) == len(afters)
        right = right and all(map(held, afters, l.whole, outs))
        return right, " | ".join([str(answer), *(str(out) if len(out) < 100 else ".." for out in outs)])

    def range(self, name, rows, letters, told):
        h, before = FIRST, self.calls
        for row, l in self.choices(name, rows, letters):
            answer, outs = self.call(name, row, l)
            h = taken(h, symbols_of(answer))
            for out in outs:
                h = taken(h, output_symbols(out))
        answer = "#%d x%x" % (self.calls - before, h)
        return told == answer, answer


def main():
    reader, differ, requests = Reader(), 0, 0
    with open(sys.argv[1]) as file:
        for at, text in enumerate(file, 1):
            text = text[:-1]
            if text == "" or text[0] == "#":
                continue
            if text[0] in "xyzoie" and text[1:2] in ("", " "):
                reader.lend(text[0], text.split(" ")[1:])
                continue
            right, answer = reader.request(text)
            requests += 1
            if not right:
                differ += 1
                if differ <= SHOWN:
                    print("line %d: %s\n    should be %s" % (at, text[:300], answer))
    print("%d requests, %d calls, %d differ" % (requests, reader.calls, differ))
    return 1 if differ or requests == 0 else 0


if __name__ == "__main__":
    sys.exit(main())
