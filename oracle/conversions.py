#!/usr/bin/env python3
"""The stored cell lists of document 02's C-14, and the same converted.

    conversions.py          writes stdin and stdout of crates/convert_cells and crates/convert_lists, stdin of
                            crates/convert_empty, and oracle/conversions.txt
    conversions.py --check  says whether those files are what it would write

convert_cells has one list, convert_lists many, each behind its length, as in list_records.py; conversions.txt says what each
is for. convert_empty has empty input, and prints nothing. What comes out is conversion.py's. The script stops where that is
not what document 02 says of every list.
"""

import sys
from itertools import product

sys.dont_write_bytecode = True

from conversion import converted
from ledger import CELL_BYTES
from list_records import LONGEST, PART, check, framed, tally
from records import Random
from stored import is_checking, store

# In range, one past it and far past it.
STRENGTHS = (0, 1, 2, 3, 200, 255)

# A record and what becomes of it, by hand.
RECORDS = [("in rule", (101, 3, 2, 1, 4, 0, 0, 0), (101, 3, 2, 1, 4, 0, 0, 0)),
           ("without strengths or edges", (101, 0, 0, 0, 4, 0, 0, 0), (101, 0, 0, 0, 4, 0, 0, 0)),
           ("with edges and no strengths", (101, 3, 0, 0, 4, 0, 0, 0), (101, 3, 0, 0, 4, 0, 0, 0)),
           ("whose vertical bS has no edge", (101, 2, 2, 1, 4, 0, 0, 0), (101, 2, 0, 1, 4, 0, 0, 0)),
           ("whose horizontal bS has no edge", (101, 1, 1, 2, 4, 0, 0, 0), (101, 1, 1, 0, 4, 0, 0, 0)),
           ("without an edge", (101, 0, 2, 1, 4, 0, 0, 0), (101, 0, 0, 0, 4, 0, 0, 0)),
           ("without an edge, with all marks", (101, 28, 1, 2, 4, 0, 0, 0), (101, 28, 0, 0, 4, 0, 0, 0)),
           ("that no check accepts, without an edge", (255, 252, 200, 3, 255, 254, 7, 9), (255, 252, 0, 0, 255, 254, 7, 9)),
           ("that no check accepts, with both edges", (0, 255, 200, 3, 255, 254, 7, 9), (0, 255, 200, 3, 255, 254, 7, 9))]
EDGELESS, EMPTIED = bytes([100, 0, 2, 1, 3, 0, 0, 0]), bytes([100, 0, 0, 0, 3, 0, 0, 0])


def every_flags_byte(random):
    """Every flags byte with every pair of strengths; the other bytes as a check would accept them, or not."""
    for flags, vertical, horizontal in product(range(256), STRENGTHS, STRENGTHS):
        ends = [random.pick(0, 0, 1, 255) for _ in range(2)]
        yield bytes([random.pick(0, 63, 64, 101, 115, 116, 255), flags, vertical, horizontal, *random_bytes(random, 2), *ends])


def random_bytes(random, count):
    return bytes(random.below(256) for _ in range(count))


def one_list():
    """Every flags byte, and then any bytes, to past four parts; five bytes at the end that would be out of rule as a record."""
    random = Random(61)
    cells = b"".join(every_flags_byte(random)) + random_bytes(random, 2 * PART)
    assert len(cells) > 4 * PART and len(cells) % CELL_BYTES == 0
    return cells + EDGELESS[:5]


def edgeless_list(random, length):
    """Records with both strengths and not both edges, and at the end so much of another as there is room for."""
    count = -(-length // CELL_BYTES)
    cells = b"".join(bytes([random.below(256), random.below(64) * 4 + random.below(3), random.between(1, 255),
                            random.between(1, 255), *random_bytes(random, 4)]) for _ in range(count))
    return cells[:length]


def short_lists():
    """Each with what becomes of it."""
    yield "empty", b"", b""
    for name, record, gives in RECORDS:
        yield f"one record {name}", bytes(record), bytes(gives)
    for name, before, gives in [("alone", b"", b""), ("after a record", EDGELESS, EMPTIED),
                                ("after two records", EDGELESS * 2, EMPTIED * 2)]:
        for length in range(1, CELL_BYTES):
            part = EDGELESS[:length]
            yield f"{length} of a record's {CELL_BYTES} bytes, {name}", before + part, gives + part
    yield "empty, between others", b"", b""


def long_lists():
    """About as long as the parts that the program takes, and as long as a list of the program can be."""
    random = Random(62)
    yield "every flags byte to 31, every strength to 3", b"".join(
        bytes([64, flags, *pair, 0, 0, 0, 0]) for flags in range(32) for pair in product(range(4), repeat=2))
    for length in (PART - CELL_BYTES, PART - 1, PART, PART + 1, PART + 4, PART + CELL_BYTES - 1, PART + CELL_BYTES,
                   PART + CELL_BYTES + 3, 2 * PART - CELL_BYTES, LONGEST):
        yield f"{length} bytes, every record out of rule", edgeless_list(random, length)
    for length in (800, PART + 803):
        cells = random_bytes(random, length)
        yield f"{length} bytes, any", cells
        yield f"{length} bytes, the ones before converted", bytes(converted(cells))
    yield "empty, at the end", b""


def all_lists():
    """Names and lists, those of known outcome held to it."""
    for name, cells, gives in short_lists():
        assert converted(cells) == gives, name
        yield name, cells
    yield from long_lists()


def main():
    checking = is_checking(__doc__)
    one, named = one_list(), list(all_lists())
    lists = [cells for _, cells in named]
    for cells in (one, *lists):
        check(cells, converted(cells))
    names = "".join(f"{number:3}  {len(cells):5}  {name}\n" for number, (name, cells) in enumerate(named, 1))
    store({"crates/convert_cells/stdin": one, "crates/convert_cells/stdout": bytes(converted(one)),
           "crates/convert_lists/stdin": b"".join(map(framed, lists)),
           "crates/convert_lists/stdout": b"".join(framed(converted(cells)) for cells in lists),
           "crates/convert_empty/stdin": b"", "oracle/conversions.txt": names.encode()}, checking)
    print(f"crates/convert_cells: {tally([one], [converted(one)])}")
    print(f"crates/convert_lists: {tally(lists, list(map(converted, lists)))}")


if __name__ == "__main__":
    main()
