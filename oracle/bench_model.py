#!/usr/bin/env python3
"""The segment bench once more, in Python: standard input to standard output.

Written from document 01, document 02's C-20 and clause 8.7.2 of ITU-T H.265, and it shares nothing
with the customer's Rust, so that the two can be held against each other. The names are the standard's,
but for C-20's counts.
"""

import sys

RECORD = 72

# Table 8-12, as runs: 16 rows of 0, then 6 to 18 by ones, then 20 to 64 by twos.
BETA_TABLE = [0] * 16 + list(range(6, 19)) + list(range(20, 65, 2))
# (value, number of rows)
TC_RUNS = [(0, 18), (1, 9), (2, 4), (3, 4), (4, 3), (5, 2), (6, 2), (7, 1), (8, 1), (9, 1), (10, 1),
           (11, 1), (13, 1), (14, 1), (16, 1), (18, 1), (20, 1), (22, 1), (24, 1)]
TC_TABLE = [value for value, rows in TC_RUNS for _ in range(rows)]
assert len(BETA_TABLE) == 52 and len(TC_TABLE) == 54


def clip3(low, high, value):
    if value < low:
        return low
    if value > high:
        return high
    return value


def tc_at_8(qPL, bS, tc_div2):
    """8.7.2.5.3: tc at depth 8"""
    return TC_TABLE[clip3(0, 53, qPL + 2 * (bS - 1) + 2 * tc_div2)]


def refusal(record):
    """The number of the first refusal that applies, or 0."""
    depth, bS, qp_p, qp_q, beta, tc, zero_6, zero_7 = record[:8]
    if depth < 8 or depth > 16:
        return 3
    for offset in (beta, tc):
        if offset > 12:
            return 7
    if bS > 2 or zero_6 > 0 or zero_7 > 0:
        return 9
    for qp in (qp_p, qp_q):
        if not -6 * (depth - 8) <= qp - 64 <= 51:
            return 9
    if any(sample > 2 ** depth - 1 for sample in samples(record)):
        return 10
    return 0


def samples(record):
    return [record[i] + 256 * record[i + 1] for i in range(8, RECORD, 2)]


def d_sam(dpq, beta, tc, line):
    """8.7.2.5.6"""
    p3, p2, p1, p0, q0, q1, q2, q3 = line
    return (dpq < (beta >> 2)
            and abs(p3 - p0) + abs(q0 - q3) < (beta >> 3)
            and abs(p0 - q0) < (5 * tc + 1) >> 1)


def decide(beta, tc, lines):
    """8.7.2.5.3: dE, dEp and dEq."""
    def dp_of(line):
        p3, p2, p1, p0, q0, q1, q2, q3 = line
        return abs(p2 - 2 * p1 + p0)

    def dq_of(line):
        p3, p2, p1, p0, q0, q1, q2, q3 = line
        return abs(q2 - 2 * q1 + q0)

    dp0, dp3, dq0, dq3 = dp_of(lines[0]), dp_of(lines[3]), dq_of(lines[0]), dq_of(lines[3])
    dpq0, dpq3, dp, dq = dp0 + dq0, dp3 + dq3, dp0 + dp3, dq0 + dq3
    d = dpq0 + dpq3
    dE = dEp = dEq = 0
    if d < beta:
        dE = 1
        if d_sam(2 * dpq0, beta, tc, lines[0]) and d_sam(2 * dpq3, beta, tc, lines[3]):
            dE = 2
        side = (beta + (beta >> 1)) >> 3
        dEp = int(dp < side)
        dEq = int(dq < side)
    return dE, dEp, dEq


def filter_line(dE, dEp, dEq, tc, depth, line):
    """8.7.2.5.7"""
    p3, p2, p1, p0, q0, q1, q2, q3 = line
    if dE == 2:
        def near(old, new):
            return clip3(old - 2 * tc, old + 2 * tc, new)
        return [p3,
                near(p2, (2 * p3 + 3 * p2 + p1 + p0 + q0 + 4) >> 3),
                near(p1, (p2 + p1 + p0 + q0 + 2) >> 2),
                near(p0, (p2 + 2 * p1 + 2 * p0 + 2 * q0 + q1 + 4) >> 3),
                near(q0, (p1 + 2 * p0 + 2 * q0 + 2 * q1 + q2 + 4) >> 3),
                near(q1, (p0 + q0 + q1 + q2 + 2) >> 2),
                near(q2, (p0 + q0 + q1 + 3 * q2 + 2 * q3 + 4) >> 3),
                q3]

    def clip1(value):
        return clip3(0, (1 << depth) - 1, value)
    new_p1, new_p0, new_q0, new_q1 = p1, p0, q0, q1
    delta = (9 * (q0 - p0) - 3 * (q1 - p1) + 8) >> 4
    if abs(delta) < tc * 10:
        delta = clip3(-tc, tc, delta)
        new_p0 = clip1(p0 + delta)
        new_q0 = clip1(q0 - delta)
        half = tc >> 1
        if dEp:
            new_p1 = clip1(p1 + clip3(-half, half, (((p2 + p0 + 1) >> 1) - p1 + delta) >> 1))
        if dEq:
            new_q1 = clip1(q1 + clip3(-half, half, (((q2 + q0 + 1) >> 1) - q1 - delta) >> 1))
    return [p3, p2, new_p1, new_p0, new_q0, new_q1, q2, q3]


def answer(record):
    """The lines that one record prints."""
    if len(record) < RECORD:
        return ["short"]
    number = refusal(record)
    if number:
        return [f"refused {number}"]
    depth, bS = record[0], record[1]
    QpP, QpQ, beta_div2, tc_div2 = record[2] - 64, record[3] - 64, record[4] - 6, record[5] - 6
    all_samples = samples(record)
    lines = [all_samples[i:i + 8] for i in range(0, 32, 8)]

    scale = 1 << (depth - 8)
    qPL = (QpQ + QpP + 1) >> 1
    beta = BETA_TABLE[clip3(0, 51, qPL + 2 * beta_div2)] * scale
    tc = 0
    if bS > 0:
        tc = tc_at_8(qPL, bS, tc_div2) * scale

    dE, dEp, dEq = decide(beta, tc, lines) if tc > 0 else (0, 0, 0)
    if dE > 0:
        lines = [filter_line(dE, dEp, dEq, tc, depth, line) for line in lines]
    kind, count_p, count_q = [("skip", 0, 0), ("weak", dEp + 1, dEq + 1), ("strong", 3, 3)][dE]
    return [f"{kind} {tc} {count_p} {count_q}"] + [" ".join(str(sample) for sample in line) for line in lines]


def main():
    data = sys.stdin.buffer.read()
    for start in range(0, len(data), RECORD):
        for line in answer(data[start:start + RECORD]):
            print(line)


if __name__ == "__main__":
    main()
