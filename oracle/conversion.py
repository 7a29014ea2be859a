"""The conversion of stored cell lists, in Python: document 02's C-14.

Written from document 02 alone; the stage and the customer's Rust share nothing with it. A list may have any length and hold
any bytes.
"""

from ledger import CELL_BYTES, first_bad, records, strengths_allowed

FLAGS = 1
# Of a record, the bytes of the vertical and of the horizontal bS, each with the flag that it needs.
STRENGTHS = [(2, 1), (3, 2)]


def whole(cells):
    """How many bytes the whole records have; what is left is a partial last record."""
    return len(cells) // CELL_BYTES * CELL_BYTES


def first_out_of_rule(cells):
    """The number of the first whole record with a strength above 0 that has no edge, or None."""
    return first_bad(strengths_allowed(record) for record in records(cells[:whole(cells)], CELL_BYTES))


def converted(cells):
    """The list with each bS 0 whose edge flag is clear. All else is copied, a partial last record too."""
    end = whole(cells)
    gives = bytearray(cells)
    for byte, flag in STRENGTHS:
        pairs = zip(cells[FLAGS:end:CELL_BYTES], cells[byte:end:CELL_BYTES])
        gives[byte:end:CELL_BYTES] = bytes(bs if flags & flag else 0 for flags, bs in pairs)
    return gives
