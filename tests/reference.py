"""The calls of the library by the reference, for tests/cases.py.

A list of flags is one number here: flag j of it is bit j. Arrow numbers flag j of a buffer as bit j mod 8 of byte j div 8, the least
significant bit first, so that the bytes read as one number, the first byte lowest, have flag j at bit j. Everything else is
the reference's: its checks by their numbers, and what each call answers, as a list; a call that has an output returns it after the list.
Sums and products are exact. Nothing here is taken from the library or from the model that writes the case file."""
import struct
from bisect import bisect_right
from functools import lru_cache, partial
from itertools import accumulate, groupby

LIMIT = 4194304
WORD = 2**64 - 1
MISSING = "-"
RANK = {number: rank for rank, number in enumerate([16, 10, 1, 11, 2, 13, 3, 14, 15, 4, 5, 12, 6, 7, 8, 9])}


class Refused(Exception):
    """The number of a failed check, and the record that the call was passed."""


def check(checks, came=()):
    failed = [number for number, holds in checks if not holds]
    if failed:
        raise Refused(min(failed, key=RANK.get), came)


class Lent:
    """Lent bytes, and their flags."""

    def __init__(self, data):
        self.data, self.size, self.flags = data, len(data), int.from_bytes(data, "little")


# Lists of n flags as numbers.


def full(n):
    return (1 << n) - 1


def piece(lent, start, n):
    """Returns n flags, the first of which is flag `start`; those past the end of the bytes are 0."""
    return lent.flags >> start & full(n) if start < 8 * lent.size else 0


def zeros(x, n):
    return n - x.bit_count()


def at_front(x, n, flag):
    """Counts the flags equal to `flag` before the first one of the n flags that differs."""
    other = x ^ full(n) if flag else x
    return (other & -other).bit_length() - 1 if other else n


def at_end(x, n, flag):
    return n - (x ^ full(n) if flag else x).bit_length()


@lru_cache(4)
def places(x):
    return [j for j, bit in enumerate(bin(x)[:1:-1]) if bit == "1"]


def words_of(x, n):
    """Returns the bytes of n flags in whole words, with zeros after the last flag."""
    return x.to_bytes(8 * -(-n // 64), "little")


def over(out, data, at=0):
    """Returns the bytes of an output with `data` written over it, starting at `at`; what does not fit is left out."""
    return (out[:at] + data + out[at + len(data) :])[: len(out)]


# Checks.


def limited(*numbers):
    return [(1, max(numbers) <= LIMIT)]


def span_checks(lent, start, n):
    return [(1, start <= LIMIT and n <= LIMIT), (2, start + n <= 8 * lent.size)]


def mask_checks(mask, lent):
    """Makes checks 1, 2 and 3: a known count is that of the flags, which are counted only if they lie in the bytes and the limit."""
    start, n, known = mask
    inside = span_checks(lent, start, n)
    counted = known is None or not all(held for _, held in inside) or known == zeros(piece(lent, start, n), n)
    return inside + [(3, counted)]


def cursor_checks(lent, start, n, place, masked=True):
    return (span_checks(lent, start, n) if masked else limited(start, n)) + [(6, place <= n)]


def room_checks(out, n):
    return [(9, len(out) >= 8 * -(-n // 64))]


def builder_checks(builder, buf, more):
    n, word, ones = builder
    possible = word >> n % 64 == 0 and ones <= 64 * (n // 64) and len(buf) >= 8 * (n // 64)
    return limited(n, n + more) + [(4, possible)] + room_checks(buf, n + more)


# Words: no check is made.

OPS = [
    lambda x, y, z, n: x & y,
    lambda x, y, z, n: x & ~y,
    lambda x, y, z, n: x | y,
    lambda x, y, z, n: x | y ^ full(n),
    lambda x, y, z, n: x ^ y,
    lambda x, y, z, n: x ^ full(n),
    lambda x, y, z, n: x & y | z & ~x,
]
AND, AND_NOT, OR, OR_NOT, XOR, NOT, SELECT = range(7)


def merged(current, following, offset):
    return (current | following << 64) >> offset & WORD if offset < 64 else current


def found(row, k):
    """Returns entry k of a list, counted from 0, or none."""
    return row[k] if 0 <= k < len(row) else MISSING


def set_bit(word, n):
    """Returns the place of set bit n, counted from 0; or none, and the number of set bits."""
    ones = word.bit_count()
    return [places(word)[n]] if n < ones else [MISSING, ones]


def read(op, masks, n):
    """Returns the first flags of up to three stretches combined, their number, and the value of all later ones of the n."""
    most = min(n, max(max(8 * lent.size - start, 0) for lent, start in masks))
    x, y, z = [piece(lent, start, most) for lent, start in masks]
    return OPS[op](x, y, z, most), most, OPS[op](0, 0, 0, 1)


def count_of(op, masks, n):
    x, most, rest = read(op, masks, n)
    return x.bit_count() + rest * (n - most)


def written(op, masks, n, out):
    """Returns an output with n combined flags written over its front, as whole words, with zeros after the last flag."""
    n_out = min(n, 8 * len(out))
    x, most, rest = read(op, masks, n_out)
    x |= (full(n_out) ^ full(most)) * rest
    return over(out, words_of(x, n_out))


# The calls over bare spans.


def aligned(lent, start, n, address):
    if n == 0:
        return [0] * 6
    check(span_checks(lent, start, n) + [(8, address <= 7)])
    x = piece(lent, start, n)
    if start % 8 + n <= 64:
        return [x, n, 0, 0, 0, 0]
    first = -(-start // 8)
    first += -(address + first) % 8
    front = 8 * first - start
    whole = (n - front) // 64
    behind = front + 64 * whole
    return [x & full(front), front, first, whole, x >> behind, n - behind]


def count(of, lent, start, n, address):
    if n == 0:
        return [0]
    check(span_checks(lent, start, n) + [(8, address <= 7)])
    return [of(piece(lent, start, n), n)]


def chunks_new(lent, start, n):
    check(span_checks(lent, start, n))
    return [start, n, 0]


def chunks_next(lent, start, n, place):
    check(cursor_checks(lent, start, n, place), [start, n, place])
    if place >= n // 64:
        return [MISSING, start, n, place]
    return [piece(lent, start + 64 * place, 64), start, n, place + 1]


def chunks_remainder(lent, start, n, place):
    check(cursor_checks(lent, start, n, place), [start, n, place])
    return [piece(lent, start, n) >> n // 64 * 64, n % 64]


def split_at(lent, start, n, at):
    check(span_checks(lent, start, n) + limited(start + at) + [(6, at <= n)])
    return [start, at, start + at, n - at]


def get_u32(lent, start, n, index):
    check(span_checks(lent, start, n))
    return [piece(lent, start + index, min(32, n - index)) if index < n else 0]


def search(lent, start, n, k, at, back):
    check(span_checks(lent, start, n))
    x = piece(lent, start, n)
    below = (x & full(min(at, n))).bit_count()
    return [found(places(x), below - 1 - k if back else below + k)]


# The builder: its length, word in progress and ones of finished words. An append returns the new builder and the buffer.


def append(builder, buf, checks, more, flags):
    """Appends the `more` flags that `flags` returns, which is called only after the checks have passed."""
    check(checks + builder_checks(builder, buf, more), builder)
    n, word, ones = builder
    row = word | flags() << n % 64
    whole = (n % 64 + more) // 64 * 64
    done = row & full(whole)
    return [n + more, row >> whole, ones + done.bit_count()], over(buf, words_of(done, whole), 8 * (n // 64))


def word_checks(word, n):
    return limited(n) + [(6, n <= 64 and word >> n == 0)]


def extend_repeated(builder, buf, lent, start, n, repeats):
    def flags():
        digits = format(piece(lent, start, n), "0%db" % n) if n else ""
        return int("".join(digit * repeats for digit in digits) or "0", 2)

    return append(builder, buf, span_checks(lent, start, n), n * repeats, flags)


def extend_bitmap(builder, buf, mask, lent, start, n):
    checks = mask_checks(mask, lent) + limited(start, n) + [(6, start + n <= mask[1])]
    return append(builder, buf, checks, n, lambda: piece(lent, mask[0] + start, n))


def gather(builder, buf, lent, start, n, indices, strict):
    def flags():
        x = piece(lent, start, n)
        return sum((x >> index & 1) << k for k, index in enumerate(indices))

    checks = span_checks(lent, start, n) + [(6, not strict or all(index < n for index in indices))]
    return append(builder, buf, checks, len(indices), flags)


def freeze(builder, buf):
    check(builder_checks(builder, buf, 0), builder)
    n, word, ones = builder
    return [0, n, n - ones - word.bit_count()], over(buf, words_of(word, n % 64), 8 * (n // 64))


def into_opt_validity(builder, buf):
    mask, out = freeze(builder, buf)
    return mask if mask[2] else [MISSING], out


# The mask: start, length, and its zero count or None.


def brought(mask, lent):
    """Returns the zero count of a mask: the known one, else that of its flags."""
    start, n, known = mask
    return zeros(piece(lent, start, n), n) if known is None else known


def fresh(n):
    return 0 if n == 0 else None


def try_new(lent, start, n):
    check(span_checks(lent, start, n))
    return [start, n, fresh(n)]


def new_zeroed(n, out):
    check(limited(n) + room_checks(out, n))
    return [0, n, n], over(out, words_of(0, n))


def unset_bits(mask, lent):
    check(mask_checks(mask, lent), mask)
    known = brought(mask, lent)
    return [known, *mask[:2], known]


def slice_of(mask, lent, offset, n):
    start, old, known = mask
    check(mask_checks(mask, lent) + limited(offset, n, start + offset) + [(6, offset + n <= old)], mask)
    if n == old:
        return mask
    if known and known < old and n + max(old // 5, 32) >= old:
        x = piece(lent, start, old)
        left = known - (zeros(x, old) - zeros(x >> offset & full(n), n))
        check([(7, 0 <= left <= n)], mask)
        return [start + offset, n, left]
    return [start + offset, n, {0: 0, old: n}.get(known)]


def constant(op, n, left, right):
    """Returns the flag of a result that is constant by the counts, or None."""
    if op == AND and n in (left, right):
        return 0
    if op == OR and 0 in (left, right):
        return 1
    if op == XOR and left in (0, n) and right in (0, n):
        return int(left != right)
    return None


def combine(op, masks, out, third=None):
    """Combines masks, which come with their bytes; for select_constant `third` is the flag of the third list."""
    n = masks[0][0][1]
    checks = [one for mask, lent in masks for one in mask_checks(mask, lent) + [(5, mask[1] == n)]]
    check(checks + room_checks(out, n))
    flag = constant(op, n, *[brought(*one) for one in masks]) if op in (AND, OR, XOR) else None
    if flag is None:
        lists = [piece(lent, start, n) for (start, _, _), lent in masks] + [full(n) * (third or 0)] * 2
        x = OPS[op](*lists[:3], n)
    else:
        x = full(n) * flag
    return [0, n, n if flag == 0 else fresh(n)], over(out, words_of(x, n))


def eq(first, a, second, b):
    check(mask_checks(first, a) + mask_checks(second, b))
    return [int(first[1] == second[1] and piece(a, *first[:2]) == piece(b, *second[:2]))]


def num_edges(mask, lent):
    check(mask_checks(mask, lent))
    start, n, _ = mask
    x = piece(lent, start, n)
    return [((x ^ x >> 1) & full(max(n - 1, 0))).bit_count()]


def num_intersections(first, a, second, b):
    check(mask_checks(first, a) + mask_checks(second, b) + [(5, first[1] == second[1])])
    return [(piece(a, *first[:2]) & piece(b, *second[:2])).bit_count()]


def and_not_at(first, a, second, b, index):
    """Returns whether flag `index` is set in the first mask and not in the second. An absent mask is None."""
    masks = [(mask, lent) for mask, lent in ((first, a), (second, b)) if mask is not None]
    checks = [one for mask, lent in masks for one in mask_checks(mask, lent) + [(5, mask[1] == masks[0][0][1]), (6, index < mask[1])]]
    check(checks)
    yes = first is None or piece(a, first[0] + index, 1)
    no = second is not None and piece(b, second[0] + index, 1)
    return [int(yes and not no)]


def may_reassign(permission, p, revocation, r, truck):
    """An operator with no permission mask may reassign nothing; the checks are those of `and_not_at`."""
    flag = and_not_at(permission, p, revocation, r, truck)
    return [0] if permission is None else flag


# The later revocation wins: two masks and their serials.


def superseding(first, a, s, second, b, t):
    """Returns whether the second wins, the first byte and the end of the winner's part, its serial, and its record over that part."""
    lists = [(mask[1], piece(lent, *mask[:2])) for mask, lent in ((first, a), (second, b)) if max(mask[:2]) <= LIMIT]
    check(mask_checks(first, a) + mask_checks(second, b) + [(14, s != t or len(lists) == 2 and lists[0] == lists[1])])
    serial, mask = (t, second) if t > s else (s, first)
    start, n, known = mask
    return [int(t > s), start // 8, -(-(start + n) // 8), serial, start % 8, n, known]


def superseding_bytes(first, a, s, second, b, t):
    """Returns the winner's bytes; after a refusal an empty part of the first slice."""
    try:
        later, start, end, *_ = superseding(first, a, s, second, b, t)
    except Refused:
        return a.data[0:0]
    return (b if later else a).data[start:end]


def next_and_not(first, a, second, b, place):
    """Returns the first position at or after the place, else the first from 0; and the windows up to the one with it."""
    n = first[1]
    checks = mask_checks(first, a) + [(6, place <= n)]
    if second is not None:
        checks += mask_checks(second, b) + [(5, second[1] == n)]
    check(checks)
    free = piece(a, *first[:2])
    if second is not None:
        free &= ~piece(b, *second[:2])
    ahead, windows = free >> place, len(range(place, n, 32))
    if ahead:
        position = place + lowest(ahead)
        return [position, len(range(place, position + 1, 32))]
    if free:
        return [lowest(free), windows + len(range(0, lowest(free) + 1, 32))]
    return [MISSING, windows + len(range(0, place, 32))]


def lowest(x):
    return (x & -x).bit_length() - 1


def offer(permission, p, revocation, r, cursor):
    """Offers a truck. An absent mask is None; with no permission mask there is no truck, and a revocation mask is only checked."""
    try:
        if permission is None:
            check([] if revocation is None else mask_checks(revocation, r))
            return [MISSING, cursor, 0]
        truck, windows = next_and_not(permission, p, revocation, r, cursor)
    except Refused as refusal:
        raise Refused(refusal.args[0], [cursor]) from None
    return [truck, cursor if truck == MISSING else truck + 1, windows]


# Grids: flag r * columns + c is row r, column c. The digits of a list are its flags as text, flag 0 first.


def digits(mask, lent):
    start, n, _ = mask
    return bin(piece(lent, start, n) | 1 << n)[:2:-1]


def grid_checks(mask, lent, rows, columns):
    return mask_checks(mask, lent) + [(12, rows * columns == mask[1])]


def grid_row(mask, lent, rows, columns, row):
    start = mask[0] + row * columns
    placed = rows * columns == mask[1] and row < rows
    check(grid_checks(mask, lent, rows, columns) + [(6, row < rows), (1, not placed or start <= LIMIT)], mask)
    return slice_of(mask, lent, row * columns, columns)


def of_digits(text, out):
    """Returns the record of the flags of a text, and the output with their frozen bytes over its front."""
    return [0, len(text), fresh(len(text))], over(out, words_of(int(text[::-1] or "0", 2), len(text)))


def grid_column(mask, lent, rows, columns, column, out):
    check(grid_checks(mask, lent, rows, columns) + [(6, column < columns)] + room_checks(out, rows))
    return of_digits(digits(mask, lent)[column::columns], out)


def grid_transpose(mask, lent, rows, columns, out):
    check(grid_checks(mask, lent, rows, columns) + room_checks(out, rows * columns))
    text = digits(mask, lent)
    return of_digits("".join(text[column::columns] for column in range(columns if rows else 0)), out)


def counted(counts, out):
    return [len(counts)], counts + out[len(counts) :]


def grid_row_zeros(mask, lent, rows, columns, out):
    check(grid_checks(mask, lent, rows, columns) + [(9, rows <= len(out))])
    text = digits(mask, lent)
    return counted([text.count("0", row * columns, (row + 1) * columns) for row in range(rows)], out)


def grid_column_zeros(mask, lent, rows, columns, out):
    check(grid_checks(mask, lent, rows, columns) + [(9, columns <= len(out))])
    text = digits(mask, lent)
    return counted([text[column::columns].count("0") for column in range(columns)], out)


# Run ends: a run has each position below its end that no run before it has.


def from_run_ends(ends, values, lent, n, out):
    """Position p takes the value of the first run whose end is above p. As ends rise, the runs before it are those with ends up to p."""
    rising = all(low < high for low, high in zip([0, *ends], ends))
    reached = ends[-1] >= n if ends else n == 0
    check(mask_checks(values, lent) + limited(n) + [(13, rising and reached and len(ends) == values[1])] + room_checks(out, n))
    text = digits(values, lent)
    return of_digits("".join(map(text.__getitem__, map(partial(bisect_right, ends), range(n)))), out)


def to_run_ends(mask, lent, ends, out):
    """The fewest runs: groups of equal flags, each of which ends where the sizes up to it add up to."""
    check(mask_checks(mask, lent))
    text = digits(mask, lent)
    runs = [(flag, sum(1 for _ in same)) for flag, same in groupby(text)]
    check([(9, len(runs) <= len(ends))] + room_checks(out, len(runs)))
    record, out = of_digits("".join(flag for flag, _ in runs), out)
    return record, [*accumulate(size for _, size in runs), *ends[len(runs) :]], out


# Cursors: start, length, place; the one over positions also has whether there is a mask.


def new_runs(mask, lent):
    check(mask_checks(mask, lent))
    return [*mask[:2], 0]


def next_run(lent, start, n, place):
    check(cursor_checks(lent, start, n, place), [start, n, place])
    x, left = piece(lent, start + place, n - place), n - place
    gap = at_front(x, left, 0)
    if gap == left:
        return [MISSING, start, n, n]
    run = at_front(x >> gap, left - gap, 1)
    return [place + gap, run, start, n, place + gap + run]


def nth_flag(lent, start, n, place, k):
    check(cursor_checks(lent, start, n, place), [start, n, place])
    if place + k >= n:
        return [MISSING, start, n, n]
    return [piece(lent, start + place + k, 1), start, n, place + k + 1]


def take_leading(lent, start, n, place, flag):
    check(cursor_checks(lent, start, n, place), [start, n, place])
    taken = at_front(piece(lent, start + place, n - place), n - place, flag)
    return [taken, start, n, place + taken]


def true_new(n, mask, lent):
    if mask is None:
        check(limited(n))
        return [0, n, 0, 0]
    check(limited(n) + mask_checks(mask, lent) + [(5, n == mask[1])])
    return [mask[0], n, 0, 1]


def positions(lent, start, n, place, masked, most):
    """Returns the next positions of ones, at most `most`, and the place after them."""
    check(cursor_checks(lent, start, n, place, masked), [start, n, place, masked])
    left = n - place
    x = piece(lent, start + place, left) if masked else full(left)
    some = []
    while x and len(some) < most:
        first = (x & -x).bit_length() - 1
        some.append(place + first)
        x ^= 1 << first
    return some, n if len(some) < most else some[-1] + 1 if some else place


def next_true(lent, start, n, place, masked):
    some, behind = positions(lent, start, n, place, masked, 1)
    return [found(some, 0), start, n, behind, masked]


def next_chunk(lent, start, n, place, masked, out):
    some, behind = positions(lent, start, n, place, masked, len(out))
    return [len(some), start, n, behind, masked], some + out[len(some) :]


# The window of minutes. Its arrays are bytes, 256 words and 64 counts; a refusal by 16 may leave an output of its own.


def busy(words):
    """Counts, for each of 64 flags, the words that have it set."""
    return [sum(word >> flag & 1 for word in words) for flag in range(64)]


def window_bytes(words, counts):
    return struct.pack("<256Q64I", *words, *counts)


def window(data, record, came):
    """Returns the words and the counts of a window; refuses by 16 if no run of minutes leaves it."""
    numbers = struct.unpack("<256Q64I", data)
    words, counts = list(numbers[:256]), list(numbers[256:])
    place, fill, width = record
    together = 1 <= width <= 256 and place < width and (place == fill or fill == width)
    if not together or any(words[fill:]) or counts != busy(words[:fill]):
        raise Refused(16, *came)
    return words, counts


def activity_new(width):
    if not 1 <= width <= 256:
        raise Refused(16, [0, 0, 0], bytes(2304))
    return [0, 0, width], bytes(2304)


def push_minutes(data, record, minutes):
    """Pushes minutes: minute k of them, counted from 0, goes to place + k mod the width."""
    place, fill, width = record
    words, _ = window(data, record, [record])
    for k, word in enumerate(minutes):
        words[(place + k) % width] = word
    fill = min(fill + len(minutes), width)
    return [(place + len(minutes)) % width, fill, width], window_bytes(words, busy(words[:fill]))


def activity_counts(data, record):
    return [], window(data, record, [[], [0] * 64])[1]
