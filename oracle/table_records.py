#!/usr/bin/env python3
"""Records of the segment bench that read the table of the luma tc (document 02, C-18), each entry once.

    table_records.py                 writes stdin and stdout of crates/bench_table
    table_records.py --check         says whether those files are what it would write
    table_records.py beside PROGRAM  PROGRAM beside the oracle, on every average QP that a picture can have at every
                                     depth, with both bS and every tc div2; status 1 at a difference

The lines of a record are flat: what it is for is the tc of the first line. Stored are the 1,352 entries in the table's
order, at depth 8; then every negative average, at depth 16, with both bS and both ends of tc div2; then one step past
each end. The outputs are what the oracle prints (run build.sh first). The script stops where an answer is not the
Python model's, by whose rule the table's text is made too: of an entry the Rust is the witness.
"""

import sys

sys.dont_write_bytecode = True

from bench_model import tc_at_8
from records import answered, compare, record, tally
from stored import is_checking, run_program, store

FLAT = 4 * [8 * [0]]
STRENGTHS = (1, 2)
OFFSETS = range(-6, 7)


class Look:
    """A record with this average QP, of two QPs that lie up to 7 apart to each side, and the tc that is due."""

    def __init__(self, depth, average, bs, div2):
        lowest = -6 * (depth - 8)
        apart = min((3 * average + 5 * bs + div2) % 8, average - lowest, 51 - average)
        rounded = (average + div2) % 2 if average - apart > lowest else 0
        qps = [average - apart - rounded, average + apart]
        assert (sum(qps) + 1) >> 1 == average and lowest <= qps[0] <= qps[1] <= 51
        qp_p, qp_q = qps if (average + bs + div2 // 2) % 2 else reversed(qps)
        self.data = record(FLAT, depth=depth, bs=bs, qp_p=qp_p, qp_q=qp_q, beta=6, tc=div2)
        self.tc = tc_at_8(average, bs, div2) << (depth - 8)

    def check(self, answer):
        assert int(answer[0].split(" ")[1]) == self.tc, (answer, self.tc)


class Past:
    """A record one step past an end, and its first line."""

    def __init__(self, expect, **header):
        self.data = record(FLAT, **header)
        self.expect = expect

    def check(self, answer):
        assert answer[0] == self.expect, (answer, self.expect)


def entries():
    for average in range(52):
        for bs in STRENGTHS:
            for div2 in OFFSETS:
                yield Look(8, average, bs, div2)


def negatives():
    for average in range(-48, 0):
        for bs in STRENGTHS:
            for div2 in (-6, 6):
                yield Look(16, average, bs, div2)


def past_the_ends():
    """At every depth a QP one below the least and one above 51, on P, on Q and on both sides; then bS 0 and 3, and tc
    div2 -7 and 7."""
    for depth in range(8, 17):
        for qp, within in [(-6 * (depth - 8) - 1, -6 * (depth - 8)), (52, 51)]:
            for qp_p, qp_q in [(qp, within), (within, qp), (qp, qp)]:
                yield Past("refused 9", depth=depth, qp_p=qp_p, qp_q=qp_q)
    yield Past("skip 0 0 0", bs=0)
    yield Past("refused 9", bs=3)
    yield Past("refused 7", header={5: 255})
    yield Past("refused 7", header={5: 13})


def every_average():
    for depth in range(8, 17):
        for average in range(-6 * (depth - 8), 52):
            for bs in STRENGTHS:
                for div2 in OFFSETS:
                    yield Look(depth, average, bs, div2)


def beside(program):
    """1 where PROGRAM does not print what the oracle prints, else 0."""
    data, output, _ = answered([*every_average(), *past_the_ends()])
    printed = run_program(program, data)
    return 1 if printed is None else compare(data, output, printed)


def main():
    if sys.argv[1:2] == ["beside"] and len(sys.argv) == 3:
        sys.exit(beside(sys.argv[2]))
    checking = is_checking(__doc__)
    cases = [*entries(), *negatives(), *past_the_ends()]
    assert sum(isinstance(case, Look) for case in cases) == 1352 + 192
    data, output, found = answered(cases)
    print(f"{len(cases)} records; {tally(found)}")
    store({"crates/bench_table/stdin": data, "crates/bench_table/stdout": output}, checking)


if __name__ == "__main__":
    main()
