#!/usr/bin/env python3
"""The stored floats of document 02's C-22, the samples that go there and back, and programs beside recogniser.py.

    floats.py [--check]                  writes (or checks) stdin and stdout of crates/float_cases, stdout of crates/sample_trips
                                         and oracle/floats.txt
    floats.py stored PROGRAM             does PROGRAM print the stored text of the stored floats, and nothing of no input?
    floats.py beside PROGRAM COUNT SEED  PROGRAM beside recogniser.py, on random floats; status 1 at a difference

A record of crates/float_cases is depth, chroma (0 is luma, any other number chroma) and a float's bit pattern, 32 bits each, low byte
first. A line has the record's number from 1, number and place of the answer, and the sample where there is one. A line of
crates/sample_trips has the depth, luma or chroma, how many samples come back as themselves, and the fingerprint of their floats. All are
recogniser.py's. The script stops unless a table of all samples' floats gives the same samples back, the floats that were worked out by
hand are theirs, and the numbers that the struct module reads in the patterns are the fractions. floats.txt lists the groups of
float_made.py.
"""

import struct
import sys
from collections import Counter
from fractions import Fraction

sys.dont_write_bytecode = True

from float_made import KINDS, any_record, by_hand, made
from held import run
from picture_records import fingerprint
from recogniser import part, pattern, recovered, value
from stored import store

FOLDER, TRIPS = "crates/float_cases", "crates/sample_trips"
RECORD = struct.Struct("<3I")


def line(number, answer, samples):
    return " ".join(map(str, [number, *answer, *samples])) + "\n"


def expected(depth, chroma, bits):
    answer, sample = recovered(depth, chroma != 0, bits)
    return answer, [] if sample is None else [sample]


# ---- Samples there and back ----

def tables():
    """The floats of all samples, by depth and kind."""
    return {(depth, chroma): [pattern(part(sample, depth, chroma)) for sample in range(2 ** depth)] for depth, chroma in KINDS}


def trips(floats):
    lines = []
    for (depth, chroma), own in floats.items():
        back = sum(recovered(depth, chroma, bits) == ((0, 0), sample) for sample, bits in enumerate(own))
        assert back == 2 ** depth == len(set(own))
        lines.append(f"{depth} {'chroma' if chroma else 'luma'} {back} {fingerprint(own):016x}\n")
    return "".join(lines)


# ---- The stored floats ----

def check_number(bits):
    """What the struct module reads in a finite float is the fraction."""
    number, = struct.unpack("<f", struct.pack("<I", bits))
    assert value(bits) is None or Fraction(number) == value(bits), bits


def check_records(records, floats):
    """recogniser.py beside the tables, and beside the figures by hand."""
    samples = {kind: {bits: sample for sample, bits in enumerate(own)} for kind, own in floats.items()}
    for depth, chroma, bits in records:
        check_number(bits)
        kind = depth, int(chroma != 0)
        wanted = ((3, 0), None) if kind not in samples else ((0, 0) if bits in samples[kind] else (15, 0), samples[kind].get(bits))
        assert recovered(depth, chroma != 0, bits) == wanted, (depth, chroma, bits)
    for depth, chroma, bits, sample in by_hand():
        assert floats[depth, chroma][sample] == bits, (depth, chroma, sample)


def list_groups(groups):
    """The numbers of each group's records, and its name."""
    lines, last = [], 0
    for name, records in groups:
        lines.append(f"{last + 1:4} to {last + len(records):4}  {name}\n")
        last += len(records)
    return "".join(lines)


def write_or_check(checking):
    groups, floats = made(), tables()
    records = [record for _, own in groups for record in own]
    check_records(records, floats)
    found = [expected(*record) for record in records]
    lines = [line(number, *parts) for number, parts in enumerate(found, 1)]
    data = b"".join(RECORD.pack(*record) for record in records)
    store({f"{FOLDER}/stdin": data, f"{FOLDER}/stdout": "".join(lines).encode(), f"{TRIPS}/stdout": trips(floats).encode(),
           "oracle/floats.txt": list_groups(groups).encode()}, checking)
    answers = Counter(number for (number, _), _ in found)
    print(f"{FOLDER}: {len(records)} records of {len(data)} bytes, {answers[0]} with samples, refused 3: {answers[3]}, 15: {answers[15]}")
    print(f"{TRIPS}: {len(floats)} lines of {sum(map(len, floats.values()))} samples")


def drawn(random):
    """A random record and what is expected of it."""
    record = any_record(random)
    return RECORD.pack(*record), expected(*record)


if __name__ == "__main__":
    run(__doc__, FOLDER, write_or_check, drawn, line)
