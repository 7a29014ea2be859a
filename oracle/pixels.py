#!/usr/bin/env python3
"""The stored pixels of document 02's C-22, and programs that print a pixel's floats beside recogniser.py.

    pixels.py [--check]                  writes (or checks) stdin and stdout of crates/pixel_cases and oracle/pixels.txt
    pixels.py stored PROGRAM             does PROGRAM print the stored text of the stored pixels, and nothing of no input?
    pixels.py beside PROGRAM COUNT SEED  PROGRAM beside recogniser.py, on pixels of random planes; status 1 at a difference

A record is a picture's, as crates/checksum_cases reads it, and the pixel's column and row, 32 bits each, low byte first. A line has the
record's number from 1, the verdict's number and place, and of a pixel that is there its floats in eight hexadecimal digits, one in
format 0 and three else. The lines are recogniser.py's; the script stops where one is answered otherwise than its case of pixel_made.py
says, or has other floats than were worked out by hand. pixels.txt lists them: number, the rest of the line, name.
"""

import struct
import sys

sys.dont_write_bytecode = True

from checksum_records import any_planes, line
from held import run
from pixel_made import made
from recogniser import parts, verdict
from stored import listed, store

FOLDER = "crates/pixel_cases"
MOST = 40_000  # samples of a plane that the program holds


def record(picture, pixel):
    return picture.pack() + struct.pack("<2I", *pixel)


def expected(picture, pixel):
    """The answer and the floats of a pixel."""
    answer = verdict(picture, *pixel)
    return answer, parts(picture, *pixel) if answer == (0, 0) else []


def check_case(case):
    """The answer and the floats, which are the case's."""
    answer, floats = expected(case.picture, case.pixel)
    assert answer == case.answer, (case.name, answer)
    assert case.floats in (None, floats), (case.name, floats)
    return answer, floats


def write_or_check(checking):
    cases = made()
    assert all(len(plane) <= MOST for case in cases for plane in case.picture.planes)
    lines = [line(number, *check_case(case)) for number, case in enumerate(cases, 1)]
    data = b"".join(record(case.picture, case.pixel) for case in cases)
    names = [case.name for case in cases]
    store({f"{FOLDER}/stdin": data, f"{FOLDER}/stdout": "".join(lines).encode(), "oracle/pixels.txt": listed(lines, names)}, checking)
    inside, by_hand = sum(case.answer == (0, 0) for case in cases), sum(case.floats is not None for case in cases)
    print(f"{FOLDER}: {len(lines)} records of {len(data)} bytes, {inside} with floats, those of {by_hand} by hand,"
          f" {len(lines) - inside} refused")


# ---- PROGRAM beside recogniser.py ----

def any_side(random, side):
    """Inside for the most part; the border, one past it, and any number."""
    if random.chance(85):
        return random.below(max(1, side))
    return random.pick(max(1, side) - 1, side, side, side + 1, random.below(2 ** 31), 2 ** 32 - 1 - random.below(9))


def any_record(random):
    """Its bytes and what is expected of it."""
    picture = any_planes(random)
    pixel = any_side(random, picture.width), any_side(random, picture.height)
    return record(picture, pixel), expected(picture, pixel)


if __name__ == "__main__":
    run(__doc__, FOLDER, write_or_check, any_record, line)
