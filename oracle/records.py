#!/usr/bin/env python3
"""Records for the segment bench, and the answers to them.

    records.py random COUNT SEED              writes COUNT records, then a short one, to standard output
    records.py expect                         reads records, writes the oracle's text
    records.py compare INPUT EXPECTED ACTUAL  tallies the answers; status 1 at a difference
"""

import struct
import sys
from collections import Counter

sys.dont_write_bytecode = True

import bench_model
from stored import first_difference, run_oracle

RECORD = 72


def record(lines, depth=8, bs=2, qp_p=37, qp_q=37, beta=0, tc=0, header=None):
    """The 72 bytes of a record. `lines` are four lines of eight samples, p3 to q3. QPs and offsets are
    given as they are, without the 64 or 6 that the record adds. `header` sets single header bytes
    as they stand in the record: {number: byte}."""
    head = bytearray([depth, bs, qp_p + 64, qp_q + 64, beta + 6, tc + 6, 0, 0])
    for number, byte in (header or {}).items():
        head[number] = byte
    samples = [sample for line in lines for sample in line]
    assert len(samples) == 32
    return bytes(head) + struct.pack("<32H", *samples)


class Random:
    """Numbers that do not depend on the Python version: Knuth's 64-bit linear congruence."""

    def __init__(self, seed):
        self.state = seed
        for _ in range(8):
            self.below(2)

    def below(self, bound):
        self.state = (self.state * 6364136223846793005 + 1442695040888963407) % 2 ** 64
        return (self.state >> 33) % bound

    def between(self, low, high):
        return low + self.below(high - low + 1)

    def pick(self, *choices):
        return choices[self.below(len(choices))]

    def chance(self, percent):
        return self.below(100) < percent


def random_line(random, depth, kind, p, q):
    """Eight samples around p and q: `smooth` (often strong), `sloped` (often weak), or `wild`."""
    largest = 2 ** depth - 1
    scale = 2 ** (depth - 8)
    if kind == "wild":
        line = [random.between(0, largest) for _ in range(8)]
    else:
        noise = scale if kind == "smooth" else random.pick(0, 2, 4) * scale
        steepest = 0 if kind == "smooth" else 6 * scale
        slope_p, slope_q = (random.between(-steepest, steepest) for _ in "pq")
        line = ([p + (i - 3) * slope_p + random.between(0, noise) for i in range(4)]
                + [q + i * slope_q + random.between(0, noise) for i in range(4)])
    return [min(max(sample, 0), largest) for sample in line]


def random_record(random):
    """A record that is not refused."""
    depth = random.between(8, 16)
    largest = 2 ** depth - 1
    scale = 2 ** (depth - 8)
    lowest = -6 * (depth - 8)
    qp_p = random.between(lowest, 51) if random.chance(10) else random.between(24, 51)
    near_p = min(51, max(lowest, qp_p + random.between(-4, 4)))
    qp_q = random.between(lowest, 51) if random.chance(10) else near_p
    offsets = [random.between(-6, 6) if random.chance(40) else 0 for _ in range(2)]
    kind = random.pick("smooth", "smooth", "smooth", "sloped", "sloped", "sloped", "wild")
    p = random.pick(0, largest, random.between(0, largest), random.between(0, largest))
    step = random.between(0, random.pick(4, 12, 40, 160) * scale)
    q = p + step if random.chance(50) else p - step
    lines = [random_line(random, depth, kind, p, q) for _ in range(4)]
    if random.chance(20):
        for i in (1, 2):
            lines[i] = random_line(random, depth, "wild", p, q)
    return record(lines, depth=depth, bs=random.pick(0, 1, 1, 1, 1, 2, 2, 2, 2, 2),
                  qp_p=qp_p, qp_q=qp_q, beta=offsets[0], tc=offsets[1])


def damaged(random, whole):
    """The record with one to three bytes changed, most of them past the end of a range."""
    data = bytearray(whole)
    for _ in range(random.pick(1, 1, 1, 2, 3)):
        place = random.pick("depth", "bs", "qp", "offset", "zero", "sample", "sample", "any")
        if place == "depth":
            data[0] = random.pick(7, 17, random.below(256))
        elif place == "bs":
            data[1] = random.pick(3, random.below(256))
        elif place == "qp":
            lowest = 64 - 6 * (min(max(whole[0], 8), 16) - 8)
            data[random.pick(2, 3)] = random.pick(lowest, lowest - 1, 115, 116, random.below(256))
        elif place == "offset":
            data[random.pick(4, 5)] = random.pick(0, 12, 13, random.below(256))
        elif place == "zero":
            data[random.pick(6, 7)] = random.pick(1, random.below(256))
        elif place == "sample":
            number = 8 + 2 * random.below(32)
            sample = random.pick(2 ** whole[0] - 1, 2 ** whole[0], random.below(65536))
            data[number:number + 2] = struct.pack("<H", min(sample, 65535))
        else:
            data[random.below(RECORD)] = random.below(256)
    return bytes(data)


def random_input(count, seed):
    """`count` records, one in ten of them damaged, and a short one at the end."""
    random = Random(seed)
    parts = []
    for _ in range(count):
        whole = random_record(random)
        parts.append(damaged(random, whole) if random.chance(10) else whole)
    parts.append(random_record(random)[:random.between(1, RECORD - 1)])
    return b"".join(parts)


def answers(text):
    """The bench's output, split into one list of lines for each record."""
    lines = text.splitlines()
    found, at = [], 0
    while at < len(lines):
        size = 5 if lines[at].split(" ")[0] in ("skip", "strong", "weak") else 1
        found.append(lines[at:at + size])
        at += size
    return found


def answered(cases):
    """The input of cases with `data`, the oracle's output, and its answers, each of which its case has to `check`. The
    model must give the same."""
    data = b"".join(case.data for case in cases)
    output, _ = run_oracle("bench", data)
    found = answers(output.decode())
    assert found == [bench_model.answer(data[start:start + RECORD]) for start in range(0, len(data), RECORD)]
    assert len(found) == len(cases)
    for case, answer in zip(cases, found):
        case.check(answer)
    return data, output, found


def kind_of(answer):
    """What a tally counts: skip, strong, weak, short, or `refused` with its number."""
    return answer[0] if answer[0].startswith("refused") else answer[0].split(" ")[0]


KINDS = ["strong", "weak", "skip", "refused 3", "refused 7", "refused 9", "refused 10", "short"]


def tally(found):
    counts = Counter(kind_of(answer) for answer in found)
    return ", ".join(f"{kind}: {counts[kind]}" for kind in KINDS + sorted(set(counts) - set(KINDS)))


def weak_tally(found):
    """The weak segments by P's and Q's count."""
    counts = Counter(" ".join(answer[0].split(" ")[2:]) for answer in found if kind_of(answer) == "weak")
    return ", ".join(f"{pair}: {counts[pair]}" for pair in sorted(counts))


def compare(data, expected, actual):
    """Tallies the answers to some records; 1 at a difference, else 0."""
    wanted = answers(expected.decode())
    assert len(wanted) == -(-len(data) // RECORD), "the oracle did not answer each record"
    print(f"{len(wanted)} records; {tally(wanted)}")
    print(f"weak, by P's and Q's count: {weak_tally(wanted)}")
    if actual == expected:
        print("no difference")
        return 0
    given = answers(actual.decode(errors="replace"))
    if given == wanted:
        print("DIFFERENCE: the same lines, but not the same line ends")
        return 1
    number = first_difference(wanted, given)
    print(f"DIFFERENCE at record {number + 1} (the first is 1)")
    print("record:  ", data[number * RECORD:(number + 1) * RECORD].hex(" ", 2))
    print("expected:", " / ".join(wanted[number]) if number < len(wanted) else "(nothing)")
    print("actual:  ", " / ".join(given[number]) if number < len(given) else "(nothing)")
    return 1


def main():
    if sys.argv[1:2] == ["random"] and len(sys.argv) == 4:
        sys.stdout.buffer.write(random_input(int(sys.argv[2]), int(sys.argv[3])))
    elif sys.argv[1:] == ["expect"]:
        sys.stdout.buffer.write(run_oracle("bench", sys.stdin.buffer.read())[0])
    elif sys.argv[1:2] == ["compare"] and len(sys.argv) == 5:
        sys.exit(compare(*(open(path, "rb").read() for path in sys.argv[2:])))
    else:
        sys.exit(__doc__)


if __name__ == "__main__":
    main()
