#!/usr/bin/env python3
"""Pairs of planes with a known count of differing samples, and the text that is expected of a program that counts them.

    counts.py          writes stdin and stdout of crates/plane_counts, and oracle/counts.txt
    counts.py --check  says whether those files are what it would write

A record, little endian: u32 width and height of the first plane, first column and first row in the second, stride and
rows of the second; width * height u16, the first plane row by row; stride * rows u16, the second. The count is of the
columns and rows of the first plane whose sample differs from the second plane's at that place moved by the first column
and row (document 01, 'The cut'). For each record the program prints the count in decimal, on a line of its own. A
truncated record prints `short`, one whose second plane has more than 40,000 columns, rows or samples `too large`, one
whose first plane does not lie in the second `outside`, and the program ends there.

Each count is known in two ways: so many samples were changed in a copy, and so many are found to differ. counts.txt
lists the records: number, count, name.
"""

import struct
import sys

sys.dont_write_bytecode = True

from picture_records import pack_numbers
from records import Random
from stored import is_checking, store

FOLDER = "crates/plane_counts"

SIZES = [(8, 8), (16, 8), (8, 24), (24, 16), (40, 24)]
# What the second plane has left, above, right and below of the part that is compared.
MARGINS = [("all of the second plane", (0, 0, 0, 0)), ("its first columns and rows", (0, 0, 5, 3)),
           ("its last columns and rows", (7, 4, 0, 0)), ("its middle", (3, 6, 9, 2))]
CHANGES = [lambda sample: sample ^ 1, lambda sample: sample ^ 0x8000, lambda sample: sample ^ 0xFF,
           lambda sample: 65535 - sample, lambda sample: (sample + 1) % 65536]


class Pair:
    """A plane of noise, and a larger one of other noise with a copy of the first in it. In the copy the samples at the
    given places, counted row by row through the first plane, are changed."""

    def __init__(self, name, random, size, margins, places):
        self.name, self.known = name, len(set(places))
        self.width, self.height = size
        self.x, self.y, right, below = margins
        self.stride, self.rows = self.x + self.width + right, self.y + self.height + below
        self.first = [random.below(65536) for _ in range(self.width * self.height)]
        self.second = [random.below(65536) for _ in range(self.stride * self.rows)]
        for place, sample in enumerate(self.first):
            self.second[self.at(place)] = sample
        for number, place in enumerate(places):
            self.second[self.at(place)] = CHANGES[number % len(CHANGES)](self.first[place])

    def at(self, place):
        return (self.y + place // self.width) * self.stride + self.x + place % self.width

    def differing(self, stride, x, y):
        """The count for this stride, first column and row, or None where the second plane is too small for them."""
        if x < 0 or y < 0 or (y + self.height - 1) * stride + x + self.width > len(self.second):
            return None
        return sum(self.first[row * self.width + column] != self.second[(y + row) * stride + x + column]
                   for row in range(self.height) for column in range(self.width))

    def check(self):
        """The count is the known one; unless all samples differ, a stride, column or row beside the right one gives
        another."""
        right = self.stride, self.x, self.y
        assert self.differing(*right) == self.known, self.name
        beside = [(self.stride + a, self.x + b, self.y + c) for a, b, c in
                  [(-1, 0, 0), (1, 0, 0), (0, -1, 0), (0, 1, 0), (0, 0, -1), (0, 0, 1)]]
        for wrong in beside + [(self.width, self.x, self.y), (self.stride, 0, 0)]:
            if wrong != right and self.known < len(self.first):
                assert self.differing(*wrong) != self.known, (self.name, wrong)

    def pack(self):
        head = struct.pack("<6I", self.width, self.height, self.x, self.y, self.stride, self.rows)
        return head + pack_numbers(self.first) + pack_numbers(self.second)


def drawn(random, total, count):
    """`count` places below `total`, none twice."""
    left = list(range(total))
    return [left.pop(random.below(len(left))) for _ in range(count)]


def grid():
    """Every size in every part of a second plane, with no sample differing, one, some and all."""
    random = Random(41)
    for width, height in SIZES:
        total = width * height
        for name, margins in MARGINS:
            for word, count in [("none", 0), ("one", 1), ("some", random.between(2, total - 1)), ("all", total)]:
                yield Pair(f"{width} by {height}, {name}: {word}", random, (width, height), margins,
                           drawn(random, total, count))


def ends():
    """One sample, row or column at an end of a part in the middle."""
    random = Random(42)
    width, height = 24, 16
    total, last_row = width * height, (height - 1) * width
    where, margins = MARGINS[3]
    for name, places in [("the first sample", [0]), ("the last of the first row", [width - 1]),
                         ("the first of the last row", [last_row]), ("the last sample", [total - 1]),
                         ("the first row", range(width)), ("the last row", range(last_row, total)),
                         ("the first column", range(0, total, width)),
                         ("the last column", range(width - 1, total, width))]:
        yield Pair(f"{width} by {height}, {where}: {name}", random, (width, height), margins, list(places))


def main():
    checking = is_checking(__doc__)
    pairs = [*grid(), *ends()]
    for pair in pairs:
        pair.check()
    files = {f"{FOLDER}/stdin": b"".join(pair.pack() for pair in pairs),
             f"{FOLDER}/stdout": "".join(f"{pair.known}\n" for pair in pairs).encode(),
             "oracle/counts.txt": "".join(f"{number:3}  {pair.known:3}  {pair.name}\n"
                                          for number, pair in enumerate(pairs, 1)).encode()}
    store(files, checking)
    most = max(len(pair.first) for pair in pairs), max(len(pair.second) for pair in pairs)
    print(f"{len(pairs)} pairs, {sum(pair.known == 0 for pair in pairs)} without a difference; at most {most[0]} and"
          f" {most[1]} samples to a plane; {len(files[f'{FOLDER}/stdin'])} bytes;"
          f" {sum(pair.known for pair in pairs)} samples differ in all")


if __name__ == "__main__":
    main()
