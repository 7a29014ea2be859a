#!/usr/bin/env python3
"""Shows with git that the stored outputs did not move when a strength came to need its edge flag (C-14).

    in_rule.py BEFORE [AFTER]     two revisions; AFTER is HEAD where it is not given

Of each stored picture of BEFORE, AFTER has the same record at the same place, byte for byte, or where it was accepted with a
strength that has no edge the same with its cell list as the program crates/convert_cells/out/convert_cells converts it; and each line of
BEFORE's output, but for `short`, which closes it. What AFTER has more comes after them. All other stored inputs and outputs,
and the shipped example, are the same bytes. The status is 1 where that is not so.
"""

import subprocess
import sys

sys.dont_write_bytecode = True

from ledger import verdict
from revisions import run
from stored import ROOT, stop

PROGRAM = ROOT / "crates" / "convert_cells" / "out" / "convert_cells"


def by_program(picture):
    cells = subprocess.run([PROGRAM], input=picture.cells, check=True, capture_output=True).stdout
    return picture.with_fields(cells=cells)


def converted(pictures):
    if not PROGRAM.exists():
        stop(f"{PROGRAM.relative_to(ROOT)} is missing: rt run in crates/convert_cells proves and builds it")
    return [None if picture.in_rule() or verdict(picture, rule=False) != (0, 0) else by_program(picture) for picture in pictures]


if __name__ == "__main__":
    run(__doc__, converted, "out of rule then and converted now")
