#!/usr/bin/env python3
"""The stored records of the segment bench, each with what it is for.

    cases.py          writes stdin and stdout of crates/segment_bench and crates/bench_cases, and oracle/cases.txt
    cases.py --check  says whether those files are what it would write

The outputs are what the oracle prints (run build.sh first). Every case says what it expects; the
script stops where the oracle answers otherwise, or where the Python model does not answer the same.
The expectations S1 to S6 are document 01's figures. cases.txt lists the records: number, first line
of the answer, name.

Most cases keep document 01's setting: depth 8, both QP 37, bS 2, offsets 0. There beta is 36 and tc
is 5, so that the limits are:

    skip           d = dp0 + dp3 + dq0 + dq3 is 36 or more
    strong         2 * dpq below 9, |p3 - p0| + |q0 - q3| below 4 and |p0 - q0| below 13, on lines 0 and 3
    P's side flag  dp0 + dp3 below 6; Q's likewise
    a weak line    |delta| below 50

The first line ends in the counts of document 02's C-20, P's and Q's. Those of a skip and of a strong segment
are always the same and are not written here; those of a weak one are, as in `weak 5 2 1`.
"""

import sys

sys.dont_write_bytecode = True

from bench_model import BETA_TABLE, TC_TABLE
from records import Random, answered, random_record, record, tally
from stored import is_checking, store

NAMES = ["p3", "p2", "p1", "p0", "q0", "q1", "q2", "q3"]


COUNTS = {"skip": "0 0", "strong": "3 3"}


def with_counts(first):
    """A first line of `skip` or `strong` with its counts."""
    words = first.split(" ")
    return f"{first} {COUNTS[words[0]]}" if len(words) == 2 and words[0] in COUNTS else first


class Case:
    """Bytes with a name, and the first line expected of the answer (or the first word alone)."""

    def __init__(self, name, data, *expect):
        self.name = name
        self.data = data
        self.expect = [with_counts(first) for first in expect]

    def check(self, answer):
        first = answer[0]
        assert first in self.expect or first.split(" ")[0] in self.expect, (self.name, self.expect, answer)


class Segment(Case):
    """A record from four lines (one line stands for all four). Two more expectations may be given: the
    four lines of the answer (one stands for all), and which samples move on any line."""

    def __init__(self, name, expect, *lines, qp=37, qp_p=None, qp_q=None, gives=None, moved=None, **rest):
        self.lines = lines if len(lines) == 4 else 4 * lines
        self.gives = gives if gives is None or len(gives) == 4 else 4 * [gives]
        self.moved = moved
        qps = dict(qp_p=qp if qp_p is None else qp_p, qp_q=qp if qp_q is None else qp_q)
        super().__init__(name, record(self.lines, **qps, **rest), expect)

    def check(self, answer):
        super().check(answer)
        after = [[int(number) for number in line.split(" ")] for line in answer[1:]]
        assert self.gives in (None, after), (self.name, self.gives, answer)
        if self.moved is not None:
            changed = [any(old[i] != new[i] for old, new in zip(self.lines, after)) for i in range(8)]
            assert self.moved.split() == [NAMES[i] for i in range(8) if changed[i]], (self.name, self.moved, answer)


# ---- Lines ----

def step(p, q):
    """Flat on both sides."""
    return [p, p, p, p, q, q, q, q]


def bent(p, q, dp, dq):
    """A step whose p2 and q2 stand out, so that the second differences are dp and dq."""
    return [p, p + dp, p, p, q, q, q + dq, q]


def ends(p, q, p3, q3):
    """A step whose outermost samples stand out by p3 and q3."""
    return [p + p3, p, p, p, q, q, q, q + q3]


PLACES = ["P of line 0", "P of line 3", "Q of line 0", "Q of line 3"]


def rough(d, place, base=100):
    """Four lines, flat but for one second difference d in the numbered place of PLACES."""
    flat = step(base, base)
    lines = [flat, flat, flat, flat]
    lines[3 * (place % 2)] = bent(base, base, d, 0) if place < 2 else bent(base, base, 0, d)
    return lines


def rough_counts(place):
    """The counts of such a segment where it is weak: the flag of the rough side is 0."""
    return "1 2" if place < 2 else "2 1"


def with_sample(number, sample):
    """Four flat lines in which one sample, counted 0 to 31 through the lines, differs."""
    samples = 32 * [100]
    samples[number] = sample
    return [samples[i:i + 8] for i in range(0, 32, 8)]


# ---- Cases ----

S1 = Segment("S1: q side 104", "strong 5", step(100, 104), gives=[100, 101, 101, 102, 103, 103, 104, 104])


def figures():
    yield Segment("S2: q side 112", "strong 5", step(100, 112), gives=[100, 102, 103, 105, 108, 109, 111, 112])
    yield Segment("S3: q side 113", "weak 5 2 2", step(100, 113), gives=[100, 100, 102, 105, 108, 111, 113, 113])
    yield Segment("S4: q side 231, delta 49", "weak 5 2 2", step(100, 231),
                  gives=[100, 100, 102, 105, 226, 229, 231, 231])
    yield Segment("S5: q side 232, delta 50", "weak 5 2 2", step(100, 232), gives=step(100, 232))
    yield Segment("S6: QP 15, beta 0 and tc 0", "skip 0", step(100, 104), qp=15, gives=step(100, 104))
    yield Segment("S7: QP -1 and -2 at depth 10", "skip 0", step(400, 408), depth=10, qp_p=-1, qp_q=-2,
                  gives=step(400, 408))


def average():
    """Both offsets are 6 here: then 4 is the lowest average that has a tc, by row 18 of TC, and a beta,
    by row 16 of BETA. In luma, which is all that the bench has, no negative average has a tc, so it shows
    only in that the record is a skip. In chroma one can: `averages` in chroma_pictures.py."""
    most = dict(beta=6, tc=6)
    for depth, qp_p, qp_q in [(10, -1, -2), (10, -2, -2), (10, -1, -1), (10, -3, -4), (10, -12, -12), (10, 0, -1),
                              (16, -48, -48), (16, -48, -47)]:
        yield Segment(f"depth {depth}, offsets 6, QP {qp_p} and {qp_q}", "skip 0", step(400, 408), depth=depth,
                      qp_p=qp_p, qp_q=qp_q, **most)
    for qp_p, qp_q, mean in [(-2, 9, 4), (9, -2, 4), (-2, 8, 3), (8, -2, 3), (-12, 20, 4), (-12, 19, 4), (-12, 18, 3)]:
        yield Segment(f"depth 10, offsets 6, QP {qp_p} and {qp_q} average to {mean}",
                      "strong 4" if mean == 4 else "skip 0", step(400, 408), depth=10, qp_p=qp_p, qp_q=qp_q, **most)
    yield Segment("QP 37 and 38 average to 38", "strong 6", step(100, 104), qp_p=37, qp_q=38)
    yield Segment("QP 38 and 37 average to 38", "strong 6", step(100, 104), qp_p=38, qp_q=37)


def tables():
    """Every row of BETA and TC, and past both ends of each. A row of BETA that is 0 shows in that a flat
    segment with a tc is a skip."""
    for qp in range(16, 52):
        beta, tc, place = BETA_TABLE[qp], TC_TABLE[qp + 2], qp % 4
        name = f"QP {qp}: BETA row {qp}, TC row {qp + 2}; {PLACES[place]} alone has d "
        yield Segment(name + "= beta - 1", f"weak {tc} {rough_counts(place)}", *rough(beta - 1, place), qp=qp)
        yield Segment(name + "= beta", f"skip {tc}", *rough(beta, place), qp=qp)
    for qp in range(4, 16):
        yield Segment(f"QP {qp}, tc offset 6: BETA row {qp}, TC row {qp + 14}", f"skip {TC_TABLE[qp + 14]}",
                      step(100, 100), qp=qp, tc=6)
    for qp, index, tc in [(0, -12, 0), (11, -1, 1), (12, 0, 1), (13, 1, 2), (14, 2, 2), (15, 3, 2)]:
        yield Segment(f"BETA index {index}, tc offset 6", f"skip {tc}", step(100, 100), qp=qp, beta=-6, tc=6)
    for qp, index, tc in [(39, 51, 6), (40, 52, 7), (51, 63, 24)]:
        yield Segment(f"BETA index {index}, d 63", f"weak {tc} {rough_counts(1)}", *rough(63, 1), qp=qp, beta=6)
        yield Segment(f"BETA index {index}, d 64", f"skip {tc}", *rough(64, 2), qp=qp, beta=6)
    for qp, bs, index in [(0, 1, -12), (9, 2, -1), (10, 2, 0), (11, 1, -1), (12, 1, 0)]:
        yield Segment(f"TC index {index}, bS {bs}, beta offset 6", "skip 0", step(100, 100), qp=qp, bs=bs, tc=-6,
                      beta=6)
    for qp in range(11, 28):
        yield Segment(f"QP {qp}, tc offset -6, beta offset 6: TC row {qp - 10}", "skip 0", step(100, 100), qp=qp, tc=-6,
                      beta=6)
    for qp, bs, tc, index in [(51, 1, 1, 53), (50, 1, 2, 54), (50, 2, 1, 54), (51, 2, 6, 65)]:
        yield Segment(f"TC index {index}, bS {bs}", "strong 24", step(100, 150), qp=qp, bs=bs, tc=tc)
    yield Segment("TC row 17, bS 1: no tc though beta is 7", "skip 0", step(100, 101), qp=17, bs=1)
    yield Segment("TC row 18, bS 1: tc 1", "strong 1", step(100, 102), qp=18, bs=1)


def strengths():
    yield Segment("bS 0", "skip 0", step(100, 104), bs=0, gives=step(100, 104))
    yield Segment("bS 0, QP 51, offsets 6", "skip 0", step(100, 104), bs=0, qp=51, beta=6, tc=6, gives=step(100, 104))
    yield Segment("bS 1, step 9: below the limit of tc 4", "strong 4", step(100, 109), bs=1)
    yield Segment("bS 1, step 10: at the limit of tc 4", "weak 4 2 2", step(100, 110), bs=1)
    yield Segment("bS 2, step 10", "strong 5", step(100, 110), bs=2)
    yield Segment("tc 0 by QP 15 though beta is 17", "skip 0", step(100, 104), qp=15, beta=6, gives=step(100, 104))
    yield Segment("skip by beta alone", "skip 5", *rough(150, 0), gives=rough(150, 0))


def depths():
    """Strong, weak and skip at the limits of every depth above 8 (S2, S3 and QP 37 above are depth 8)."""
    for depth in range(9, 17):
        scale = 2 ** (depth - 8)
        tc = 5 * scale
        base = 100 * scale + depth
        limit = (5 * tc + 1) // 2
        yield Segment(f"depth {depth}: step one below the limit", f"strong {tc}", step(base, base + limit - 1),
                      depth=depth)
        if depth in (9, 16):
            yield Segment(f"depth {depth}: step at the limit", f"weak {tc} 2 2", step(base, base + limit), depth=depth)
        place = depth % 4
        for name, d, first in [("d = beta - 1", 36 * scale - 1, f"weak {tc} {rough_counts(place)}"),
                               ("d = beta", 36 * scale, f"skip {tc}")]:
            yield Segment(f"depth {depth}: {name}", first, *rough(d, place, base), depth=depth)


def lowest_qps():
    """The lowest QP of every depth, and one past it. The other QP is 51, so that most have a tc."""
    for depth in range(8, 17):
        lowest = -6 * (depth - 8)
        tc = TC_TABLE[(lowest + 51 + 1) // 2 + 2 + 12] * 2 ** (depth - 8)
        rest = dict(depth=depth, beta=6, tc=6)
        line = step(100, 101)
        side, other = ("qp_p", "qp_q") if depth % 2 else ("qp_q", "qp_p")
        yield Segment(f"depth {depth}: lowest {side}, {lowest}", f"strong {tc}" if tc else "skip 0", line,
                      **{side: lowest, other: 51}, **rest)
        yield Segment(f"depth {depth}: qp_p {lowest - 1}", "refused 9", line, qp_p=lowest - 1, qp_q=51, **rest)
        yield Segment(f"depth {depth}: qp_q {lowest - 1}", "refused 9", line, qp_p=51, qp_q=lowest - 1, **rest)


def largest_samples():
    for depth in range(8, 17):
        largest = 2 ** depth - 1
        yield Segment(f"depth {depth}: all samples {largest}, the largest", f"strong {5 * 2 ** (depth - 8)}",
                      step(largest, largest), depth=depth, gives=step(largest, largest))
    for depth in range(8, 16):
        # From the first sample of the record, 0, to the last, 31.
        number = 4 * (depth - 8) + depth % 4
        yield Segment(f"depth {depth}: sample {number} is {2 ** depth}", "refused 10", *with_sample(number, 2 ** depth),
                      depth=depth)
    yield Segment("depth 8: sample 31 is 256", "refused 10", *with_sample(31, 256))
    yield Segment("depth 8: sample 31 is 65535", "refused 10", *with_sample(31, 65535))
    yield Segment("depth 16: sample 8, on line 1, is 65535", "strong 1280", *with_sample(8, 65535), depth=16)


def header_bytes():
    """Each header byte at both ends of its range and one past them. Bytes 1, 4, 5, 6 and 7 begin at 0, so
    that nothing lies below; 255 is tried instead. Bytes 6 and 7 may only be 0, as they are in all other
    cases."""
    for number, name, low, high, refusal in [(0, "depth", 8, 16, 3), (1, "bS", 0, 2, 9), (2, "QpP", 64, 115, 9),
                                             (3, "QpQ", 64, 115, 9), (4, "beta offset", 0, 12, 7),
                                             (5, "tc offset", 0, 12, 7), (6, "zero", 0, 0, 9), (7, "zero", 0, 0, 9)]:
        inside = [low, high] if high > 0 else []
        outside = [low - 1 if low > 0 else 255, high + 1]
        for byte in inside:
            expect = "skip 0" if (name, byte) == ("bS", 0) else "strong"
            yield Segment(f"byte {number}, {name}: {byte}", expect, step(100, 102), qp=45, header={number: byte})
        for byte in outside:
            yield Segment(f"byte {number}, {name}: {byte}", f"refused {refusal}", step(100, 102), qp=45,
                          header={number: byte})


def several_faults():
    """The first of 3, 7, 9, 10 that applies is the answer."""
    fine = [step(100, 104)]
    large = with_sample(20, 256)
    yield Segment("depth and beta offset", "refused 3", *fine, header={0: 7, 4: 13})
    yield Segment("depth and tc offset", "refused 3", *fine, header={0: 17, 5: 13})
    yield Segment("depth and bS", "refused 3", *fine, header={0: 7, 1: 3})
    yield Segment("depth and QpP", "refused 3", *fine, header={0: 17, 2: 0})
    yield Segment("depth and sample", "refused 3", *large, header={0: 7})
    yield Segment("beta offset and bS", "refused 7", *fine, header={4: 13, 1: 3})
    yield Segment("tc offset and QpP", "refused 7", *fine, header={5: 13, 2: 63})
    yield Segment("beta offset and a zero byte", "refused 7", *fine, header={4: 13, 6: 1})
    yield Segment("tc offset and sample", "refused 7", *large, header={5: 13})
    yield Segment("bS and sample", "refused 9", *large, header={1: 3})
    yield Segment("QpQ and sample", "refused 9", *large, header={3: 63})
    yield Segment("a zero byte and sample", "refused 9", *large, header={7: 1})
    yield Segment("both offsets, QpQ and sample", "refused 7", *large, header={4: 13, 5: 13, 3: 116})
    yield Segment("everything", "refused 3", *large, header={number: 255 for number in range(8)})
    yield Segment("bS 0 does not hide a sample out of range", "refused 10", *large, bs=0)
    yield Segment("QP 0, which has no tc, does not hide a sample out of range", "refused 10", *large, qp=0)


def side_flags():
    """dp0 + dp3 and dq0 + dq3 at 5, where the flag is set, and at 6, where it is not. Lines 1 and 2 show
    what moves."""
    plain = step(100, 110)
    for name, first, dp, dq, moved in [("both", "weak 5 2 2", (3, 2), (2, 3), "p1 p0 q0 q1"),
                                       ("P only", "weak 5 2 1", (2, 3), (3, 3), "p1 p0 q0"),
                                       ("Q only", "weak 5 1 2", (2, 4), (5, 0), "p0 q0 q1"),
                                       ("neither", "weak 5 1 1", (3, 3), (4, 2), "p0 q0")]:
        yield Segment(f"side flags: {name}", first, bent(100, 110, dp[0], dq[0]), plain, plain,
                      bent(100, 110, dp[1], dq[1]), moved=moved)
    yield Segment("side flags: P's cleared by line 3 alone", "weak 5 1 2", plain, plain, plain, bent(100, 110, 6, 0),
                  moved="p0 q0 q1")
    yield Segment("side flags: Q's cleared by line 0 alone", "weak 5 2 1", bent(100, 110, 0, 6), plain, plain, plain,
                  moved="p1 p0 q0")
    yield Segment("tc 1: half of it is 0, so p1 and q1 stay", "weak 1 2 2", step(100, 103), qp=18, bs=1, moved="p0 q0")
    yield Segment("tc 3: half of it is 1", "weak 3 2 2", step(100, 108), qp=30,
                  gives=[100, 100, 101, 103, 105, 107, 108, 108])


def lines_0_and_3():
    """The decision reads lines 0 and 3, each by itself, and not lines 1 and 2."""
    plain = step(100, 104)
    zigzag, gazgiz = [0, 255, 0, 255, 0, 255, 0, 255], [255, 0, 255, 0, 255, 0, 255, 0]
    yield Segment("d 36 from all four places", "skip 5", bent(100, 104, 9, 9), plain, plain, bent(100, 104, 9, 9))
    yield Segment("d 35 from all four places", "weak 5 1 1", bent(100, 104, 9, 9), plain, plain, bent(100, 104, 9, 8))
    for name, one, other in [("2 * dpq = 10", bent(100, 104, 2, 3), bent(100, 104, -5, 0)),
                             ("|p3 - p0| + |q0 - q3| = 4", ends(100, 104, 2, -2), ends(100, 104, 2, 2)),
                             ("|p0 - q0| = 13", step(100, 113), step(113, 100))]:
        yield Segment(f"weak by {name} on line 0 alone", "weak 5 2 2", one, plain, plain, plain)
        yield Segment(f"weak by {name} on line 3 alone", "weak 5 2 2", plain, plain, plain, other)
        yield Segment(f"strong with {name} on lines 1 and 2", "strong 5", plain, one, other, plain)
    yield Segment("QP 21, beta 11: weak by 2 * dpq = 11 >> 2", "weak 1 1 2", bent(100, 101, 1, 0), qp=21)
    yield Segment("strong with 2 * dpq = 8", "strong 5", bent(100, 104, 2, 2), plain, plain, bent(100, 104, 0, 4))
    yield Segment("strong with |p3 - p0| + |q0 - q3| = 3", "strong 5", ends(100, 104, -2, 1), plain, plain,
                  ends(100, 104, 0, 3))
    yield Segment("strong with |p0 - q0| = 12, up and down", "strong 5", step(100, 112), plain, plain, step(112, 100))
    yield Segment("strong with all three at their last value", "strong 5", [102, 102, 100, 100, 112, 112, 114, 113],
                  plain, plain, [99, 102, 100, 100, 88, 88, 86, 90])
    yield Segment("strong, lines 1 and 2 wild: moves held to 2 * tc", "strong 5", plain, zigzag, gazgiz, plain,
                  moved="p2 p1 p0 q0 q1 q2")
    yield Segment("weak, lines 1 and 2 wild: a delta for each line", "weak 5 2 2", step(100, 113), zigzag,
                  step(200, 10), step(100, 113))
    for name, first, last in [("lines 0 and 3", zigzag, gazgiz), ("line 0", zigzag, plain), ("line 3", plain, zigzag)]:
        yield Segment(f"skip by {name}", "skip 5", first, plain, plain, last, gives=[first, plain, plain, last])


def clipping():
    """Weak lines that would leave the range, and strong ones at its ends. A strong line cannot leave it: it
    takes means of samples."""
    for depth in (8, 16):
        scale, largest = 2 ** (depth - 8), 2 ** depth - 1
        tc = 5 * scale
        ramp = [0, 0, 0, 0, 0, 30 * scale, 60 * scale, 90 * scale]
        for sides, line, moved in [("p1 and p0", ramp, "q0 q1"), ("q0 and q1", ramp[::-1], "p1 p0")]:
            turned = [largest - sample for sample in line]
            yield Segment(f"depth {depth}: weak, {sides} would fall below 0", f"weak {tc} 2 2", line, depth=depth,
                          moved=moved)
            yield Segment(f"depth {depth}: weak, {sides} would pass the largest", f"weak {tc} 2 2", turned, depth=depth,
                          moved=moved)
        for end, low, high in [("0", 0, 4 * scale), ("the largest", largest - 4 * scale, largest)]:
            yield Segment(f"depth {depth}: strong at {end}", f"strong {tc}", step(low, high), step(high, low),
                          step(0, largest), step(high, low), depth=depth)


def deltas():
    """|delta| against 10 * tc, and shifts of negative numbers, which are floors."""
    yield Segment("delta -49 = -784 >> 4", "weak 5 2 2", step(232, 100), moved="p1 p0 q0 q1")
    yield Segment("delta -50 = -790 >> 4", "weak 5 2 2", step(233, 100), gives=step(233, 100))
    yield Segment("delta 49, 50, -50, -49 on the four lines", "weak 5 2 2",
                  step(100, 231), step(100, 232), step(233, 100), step(232, 100),
                  gives=[[100, 100, 102, 105, 226, 229, 231, 231], step(100, 232), step(233, 100),
                         [232, 232, 230, 227, 105, 102, 100, 100]])
    yield Segment("tc 1: delta 9", "weak 1 2 2", step(100, 125), qp=18, bs=1, moved="p0 q0")
    yield Segment("tc 1: delta 10", "weak 1 2 2", step(100, 126), qp=18, bs=1, gives=step(100, 126))
    yield Segment("depth 16: delta 12799", "weak 1280 2 2", step(1000, 35131), depth=16, moved="p1 p0 q0 q1")
    yield Segment("depth 16: delta 12800", "weak 1280 2 2", step(1000, 35132), depth=16, gives=step(1000, 35132))
    yield Segment("delta -1 = -4 >> 4; p1 moves by -1 >> 1", "weak 5 2 2", ends(100, 98, 10, 0),
                  gives=[110, 100, 99, 99, 99, 98, 98, 98])
    yield Segment("delta -1 = -1 >> 4", "weak 5 2 2", [100, 100, 100, 100, 101, 106, 111, 116],
                  gives=[100, 100, 99, 99, 102, 106, 111, 116])
    yield Segment("delta 1; q1 moves by -1 >> 1", "weak 5 2 2", ends(100, 102, 10, 0),
                  gives=[110, 100, 100, 101, 101, 101, 102, 102])
    yield Segment("delta 0: nothing moves", "weak 5 2 2", ends(100, 101, 10, 0), gives=ends(100, 101, 10, 0))
    far = ends(100, 100, 10, 0)
    yield Segment("delta 0, p1 and q1 by 1 and 1, then by -5 >> 1 (held to -2) and -2 >> 1", "weak 5 2 2",
                  far, bent(100, 100, 4, 6), bent(100, 100, -10, -4), far,
                  gives=[far, [100, 104, 101, 100, 100, 101, 106, 100], [100, 90, 98, 100, 100, 99, 96, 100], far])


def at_random():
    random = Random(20)
    for number in range(1, 25):
        yield Case(f"random {number}", random_record(random), "skip", "strong", "weak")


def last():
    yield Case("71 bytes of a record", S1.data[:71], "short")


GROUPS = [figures, average, tables, strengths, depths, lowest_qps, largest_samples, header_bytes, several_faults,
          side_flags, lines_0_and_3, clipping, deltas, at_random, last]


def main():
    checking = is_checking(__doc__)
    cases = [case for group in GROUPS for case in group()]
    s1_data, s1_output, _ = answered([S1])
    data, output, found = answered(cases)
    listing = "".join(f"{number:3}  {answer[0]:15}  {case.name}\n"
                      for number, (case, answer) in enumerate(zip(cases, found), 1))
    files = {"crates/segment_bench/stdin": s1_data, "crates/segment_bench/stdout": s1_output,
             "crates/bench_cases/stdin": data, "crates/bench_cases/stdout": output,
             "oracle/cases.txt": listing.encode()}
    store(files, checking)
    print(f"{len(cases)} records; {tally(found)}")


if __name__ == "__main__":
    main()
