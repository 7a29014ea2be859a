#!/usr/bin/env python3
"""Cell lists for the conversion of document 02's C-14, one behind another, and the same converted.

    list_records.py random COUNT SEED              writes COUNT random lists to standard output
    list_records.py expect                         reads lists, writes them converted
    list_records.py compare INPUT EXPECTED ACTUAL  counts the lists; status 1 at a difference

Each list comes behind its length: two bytes, low first.
"""

import sys

sys.dont_write_bytecode = True

from conversion import converted, first_out_of_rule, whole
from ledger import CELL_BYTES
from records import Random
from stored import first_difference

PART = 32768  # the bytes that the program takes at once
LONGEST = 65535


def framed(cells):
    return len(cells).to_bytes(2, "little") + cells


def unframe(data):
    """The lists."""
    at = 0
    while at < len(data):
        length = int.from_bytes(data[at:at + 2], "little")
        at += 2 + length
        assert at <= len(data), "the last list is cut off"
        yield data[at - length:at]


# ---- Random lists ----

def random_length(random):
    """Of a few records, mostly; one in four hundred of about a part of the program's, or of more."""
    if random.below(400) == 0:
        return random.pick(PART - 1, PART, PART + 1, PART + random.between(-20, 20), LONGEST, random.between(PART, LONGEST))
    return CELL_BYTES * random.below(random.pick(3, 8, 30)) + random.pick(0, 0, 0, random.below(CELL_BYTES))


def random_cell(random):
    """A record as a box may write it: any edge flags and marks with any strengths."""
    return bytes([random.between(64, 115), random.below(32), random.below(3), random.below(3), random.below(4), 0, 0, 0])


def random_list(random):
    """Any bytes, or records as a box may write them; one in five in rule."""
    length = random_length(random)
    if random.chance(50):
        cells = bytes(random.below(256) for _ in range(length))
    else:
        cells = b"".join(random_cell(random) for _ in range(0, length, CELL_BYTES))[:length]
    return bytes(converted(cells)) if random.chance(20) else cells


def random_input(count, seed):
    random = Random(seed)
    return (framed(random_list(random)) for _ in range(count))


# ---- What is expected ----

def check(cells, gives):
    """What document 02 says of every list: whole records come in rule, one in rule stays the same, and twice is once."""
    assert len(gives) == len(cells) and first_out_of_rule(gives) is None
    assert (gives == cells) == (first_out_of_rule(cells) is None)
    assert converted(gives) == gives and gives[whole(cells):] == cells[whole(cells):]


def tally(lists, gives):
    stay = sum(before == after for before, after in zip(lists, gives))
    zeroed = sum(before != after for pair in zip(lists, gives) for before, after in zip(*pair))
    partial = sum(len(cells) % CELL_BYTES > 0 for cells in lists)
    longer = sum(len(cells) > PART for cells in lists)
    return (f"lists: {len(lists)}, bytes: {sum(map(len, lists))}, in rule: {stay}, with a partial last record: {partial},"
            f" longer than {PART} bytes: {longer}, strengths zeroed: {zeroed}")


def compare(input_path, expected_path, actual_path):
    data, expected, actual = (open(path, "rb").read() for path in (input_path, expected_path, actual_path))
    lists, wanted = list(unframe(data)), list(unframe(expected))
    for cells, gives in zip(lists, wanted, strict=True):
        check(cells, gives)
    print(tally(lists, wanted))
    if actual == expected:
        print("no difference")
        return 0
    at = first_difference(expected, actual)
    number, start = 0, 0
    while number < len(lists) and start + 2 + len(lists[number]) <= at:
        start += 2 + len(lists[number])
        number += 1
    print(f"DIFFERENCE in list {number + 1} (the first is 1), at byte {at - start - 2}; {len(expected)} bytes are expected, and"
          f" {len(actual)} came")
    return 1


def main():
    arguments = sys.argv[1:]
    if arguments[:1] == ["random"] and len(arguments) == 3:
        for cells in random_input(int(arguments[1]), int(arguments[2])):
            sys.stdout.buffer.write(cells)
    elif arguments == ["expect"]:
        for cells in unframe(sys.stdin.buffer.read()):
            sys.stdout.buffer.write(framed(converted(cells)))
    elif arguments[:1] == ["compare"] and len(arguments) == 4:
        sys.exit(compare(*arguments[1:]))
    else:
        sys.exit(__doc__)


if __name__ == "__main__":
    main()
