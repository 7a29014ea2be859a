#!/usr/bin/env python3
"""Shows with git that the stored outputs moved by the counts of C-20 alone.

    counted.py BEFORE [AFTER]     two revisions; AFTER is HEAD where it is not given

Each line of the stored bench outputs of AFTER is that of BEFORE, but that the first line of a segment has two numbers more at
its end: 0 and 0 of a skip, 3 and 3 of a strong one, each 1 or 2 of a weak one. All other stored inputs and outputs, and the
shipped example, are the same bytes. The status is 1 where that is not so.
"""

import sys

sys.dont_write_bytecode = True

from revisions import git, streams, two_revisions

BENCHES = ["segment_bench", "bench_cases"]
PAIRS = {"skip": ["0 0"], "strong": ["3 3"], "weak": ["1 1", "1 2", "2 1", "2 2"]}


def check_bench(name, before, after):
    old, new = (git("show", f"{revision}:{name}").decode().split("\n") for revision in (before, after))
    assert len(old) == len(new), f"{name}: not as many lines"
    firsts = 0
    for number, (was, now) in enumerate(zip(old, new), 1):
        pairs = PAIRS.get(was.split(" ")[0], [])
        firsts += bool(pairs)
        assert now in ([f"{was} {pair}" for pair in pairs] or [was]), f"{name}, line {number}: {was!r} became {now!r}"
    print(f"{name}: {firsts} first lines with two numbers more; {len(old) - 1 - firsts} other lines, the same")


def main():
    before, after = two_revisions(__doc__)
    assert streams(before) == streams(after), "the two revisions have not the same stored files"
    moved = [f"crates/{crate}/stdout" for crate in BENCHES]
    for name in streams(before):
        if name in moved:
            check_bench(name, before, after)
        else:
            assert git("show", f"{before}:{name}") == git("show", f"{after}:{name}"), f"{name} moved"
            print(f"{name}: the same bytes")


if __name__ == "__main__":
    main()
