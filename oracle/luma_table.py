#!/usr/bin/env python3
"""The table of the luma tc, document 02's C-18: 1,352 numbers, as a constant array of the code.

    luma_table.py          writes crates/thresholds/src/luma_table.rt
    luma_table.py --check  says whether that file is what it would write

An entry is document 01's tc at depth 8: the row of TC at QP + 2 * (bS - 1) + 2 * (tc div2), held to 0..53. The
entries go by average QP, then by bS, then by tc div2; beside each stand the three.
"""

import sys

sys.dont_write_bytecode = True

from bench_model import tc_at_8
from stored import is_checking, store

FILE = "crates/thresholds/src/luma_table.rt"

HEAD = """\
// The luma tc at depth 8, for average QP 0 to 51, bS 1 and 2, tc div2 -6 to 6 (document 02, C-18). The entries go by
// average QP, then by bS, then by tc div2. Made by oracle/luma_table.py; proved to be the table, entry for entry.
ghost use Rattle.thresholds.specs.LumaTable.{TcTable};

const LUMA_TC: [u8; 1352] = [
"""

TAIL = """\
];

// The array is laid out anew at each call, so a caller with many looks calls this once and lends it.
pub fn luma_tc_table() -> [u8; 1352]
    ensures { TcTable result }
{
    LUMA_TC
}
"""


def entries():
    for average in range(52):
        for bs in (1, 2):
            for div2 in range(-6, 7):
                yield f"    {tc_at_8(average, bs, div2)}, // QP {average}, bS {bs}, div2 {div2}\n"


def main():
    lines = list(entries())
    assert len(lines) == 1352
    store({FILE: (HEAD + "".join(lines) + TAIL).encode()}, is_checking(__doc__))


if __name__ == "__main__":
    main()
