"""The refusal ledger of document 01, in Python: which number and place a picture is answered with.

Written from document 01 alone, and of document 02 C-19 for flag bit 4 and C-14 for strengths that need an edge. It shares
nothing with the stage, nor with the customer's Rust, which refuses nothing. `verdict` takes a Picture of picture_records.py:
any fields at all. A cause carries its number and what finds its place in a picture, or None; some of document 02's requests
have some of the causes, in an order of their own.
"""

# Chroma format: by what the width and the height of the luma plane are divided. Format 0 has empty chroma planes.
SCALES = {1: (2, 2), 2: (2, 1), 3: (1, 1)}

CELL_BYTES = 8
SLICE_BYTES = 4


def chroma_length(picture):
    if picture.format == 0:
        return 0
    across, down = SCALES[picture.format]
    return (picture.width // across) * (picture.height // down)


def size_allowed(n):
    return n in range(8, 8193, 8)


def plane_lengths(picture):
    chroma = chroma_length(picture)
    return picture.width * picture.height, chroma, chroma


def planes_exact(picture):
    """Of the given planes alone."""
    return tuple(map(len, picture.planes)) == plane_lengths(picture)


def lengths_exact(picture):
    if not planes_exact(picture) or picture.out_lengths != plane_lengths(picture):
        return False
    if len(picture.cells) != CELL_BYTES * (picture.width * picture.height // 16):
        return False
    if len(picture.slices) % SLICE_BYTES or len(picture.slices) > 2400:
        return False
    return 1 <= len(picture.columns) <= 20 and 1 <= len(picture.rows) <= 22


def records(data, size):
    return [data[start:start + size] for start in range(0, len(data), size)]


def first_bad(allowed):
    """The place of the first False, or None."""
    return next((place for place, good in enumerate(allowed) if not good), None)


def slice_allowed(record):
    disabled, beta, tc, across = record
    return disabled <= 1 and beta <= 12 and tc <= 12 and across <= 1


def first_bad_slice(picture):
    return first_bad(slice_allowed(record) for record in records(picture.slices, SLICE_BYTES))


def first_bad_start(starts, samples, log2_ctb):
    """The number of the first start out of rule, or None."""
    ctbs = -(-samples // 2 ** log2_ctb)
    before = None
    for number, start in enumerate(starts):
        in_order = start == 0 if before is None else start > before
        if not in_order or start >= ctbs:
            return number
        before = start
    return None


def first_bad_tile(picture):
    """Rows are numbered on after the columns."""
    column = first_bad_start(picture.columns, picture.width, picture.log2_ctb)
    if column is not None:
        return column
    row = first_bad_start(picture.rows, picture.height, picture.log2_ctb)
    return None if row is None else len(picture.columns) + row


def ranges_allowed(record, luma_depth, slice_count):
    qp, flags, bs_v, bs_h, low, high, zero_6, zero_7 = record
    return (-6 * (luma_depth - 8) <= qp - 64 <= 51
            and flags < 32 and bs_v <= 2 and bs_h <= 2
            and low + 256 * high < slice_count
            and zero_6 == 0 and zero_7 == 0)


def strengths_allowed(record):
    """Document 02's C-14: a vertical bS above 0 needs flag bit 0, a horizontal one bit 1."""
    _, flags, bs_v, bs_h, *_ = record
    return (bs_v == 0 or flags & 1 != 0) and (bs_h == 0 or flags & 2 != 0)


def first_bad_cell(picture, rule=True):
    """One pass, with C-14's rule or without."""
    slice_count = max(1, len(picture.slices) // SLICE_BYTES)
    return first_bad(ranges_allowed(record, picture.luma_depth, slice_count) and (strengths_allowed(record) or not rule)
                     for record in records(picture.cells, CELL_BYTES))


def first_bad_sample(picture):
    y, cb, cr = picture.planes
    return first_bad([sample < 2 ** picture.luma_depth for sample in y]
                     + [sample < 2 ** picture.chroma_depth for sample in (*cb, *cr)])


def cause(number, allowed):
    """One whose place is 0."""
    return number, lambda picture: None if allowed(picture) else 0


SIZES = cause(1, lambda picture: size_allowed(picture.width) and size_allowed(picture.height))
FORMAT = cause(2, lambda picture: picture.format <= 3)
DEPTHS = cause(3, lambda picture: all(8 <= depth <= 16 for depth in (picture.luma_depth, picture.chroma_depth)))
CTB = cause(4, lambda picture: 4 <= picture.log2_ctb <= 6)
OFFSETS = cause(5, lambda picture: all(-12 <= offset <= 12 for offset in (picture.cb_offset, picture.cr_offset)))
LENGTHS, PLANE_LENGTHS = cause(6, lengths_exact), cause(6, planes_exact)
SLICES, TILES, CELLS, SAMPLES = (7, first_bad_slice), (8, first_bad_tile), (9, first_bad_cell), (10, first_bad_sample)
CELLS_BEFORE = 9, lambda picture: first_bad_cell(picture, rule=False)  # without C-14's rule


def first_cause(picture, causes):
    """Number and place by the first cause that holds; (0, 0) where none does."""
    found = ((number, look(picture)) for number, look in causes)
    return next(((number, place) for number, place in found if place is not None), (0, 0))


def verdict(picture, rule=True):
    """Number and place; (0, 0) for an accepted picture. Without C-14's rule they are those of before the request."""
    cells = CELLS if rule else CELLS_BEFORE
    return first_cause(picture, [SIZES, FORMAT, DEPTHS, CTB, OFFSETS, LENGTHS, SLICES, TILES, cells, SAMPLES])
