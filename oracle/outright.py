#!/usr/bin/env python3
"""Shows with git that the stored outputs did not move when an empty slice list came to stand for another record (C-13).

    outright.py BEFORE [AFTER]     two revisions; AFTER is HEAD where it is not given

Of each stored picture of BEFORE, AFTER has the same record at the same place, byte for byte, or where its slice list was empty
the same with 0, 6, 6, 1 in it; and each line of BEFORE's output, but for `short`, which closes it. What AFTER has more comes
after them. All other stored inputs and outputs, and the shipped example, are the same bytes. The status is 1 where that is
not so.
"""

import sys

sys.dont_write_bytecode = True

from picture_records import PLAIN_SLICE
from revisions import run


def with_record(pictures):
    return [None if picture.slices else picture.with_slices(PLAIN_SLICE) for picture in pictures]


if __name__ == "__main__":
    run(__doc__, with_record, "with an empty list then and 0, 6, 6, 1 now")
