#!/usr/bin/env python3
"""Writes the input of the program maskreport, and the output that it must print for it:

    python3 tests/maskreport.py CASE stdin > crates/CRATE/stdin
    python3 tests/maskreport.py CASE stdout > crates/CRATE/stdout

CASE is `example`, the reference's byte, for the crate maskreport; `empty`, `full` and `over`, that is no bytes, as many as it takes at
most, and one more, for maskreport_empty, maskreport_full and maskreport_over. The numbers are counted over the list of flags."""
import sys
from itertools import groupby

MOST = 65536


def mixed(size):
    """Returns bytes that look random."""
    rows = [(i * 167 + 886) * 2654435761 % 2**32 for i in range(size)]
    return [(y // 32768 + y % 32768) * 2246822519 // 65536 % 256 for y in rows]


CASES = {"example": [0x2D], "empty": [], "full": mixed(MOST), "over": mixed(MOST + 1)}


def flags_of(data):
    """Returns the flags: flag j is bit j mod 8 of byte j div 8, the least significant first."""
    return [data[j // 8] >> j % 8 & 1 == 1 for j in range(8 * len(data))]


def report(data):
    if len(data) > MOST:
        return "refused=1\n"
    flags = flags_of(data)
    edges = sum(1 for x, y in zip(flags, flags[1:]) if x != y)
    runs = sum(1 for flag, _ in groupby(flags) if flag)
    return "flags=%d\nzeros=%d\nedges=%d\nruns=%d\n" % (len(flags), flags.count(False), edges, runs)


case, file = sys.argv[1:]
data = CASES[case]
sys.stdout.buffer.write(bytes(data) if file == "stdin" else report(data).encode())
