"""The stored pictures of the chroma thresholds: both tables at their ends and past them, averages below zero, and where
the Rust and the standard part. Every expected sample is by the figures of document 01, and of document 02's C-17; the
table TC is bench_model.py's. A segment's chroma index is its average QP plus the Cb or Cr offset, and its tc index the
chroma QP of that + 2 + 2 * tc div2.
"""

from bench_model import TC_TABLE
from picture_case import Case, edges, same_as, stays
from picture_records import VERTICAL, Picture, oracle

PLANES = ["Cb", "Cr"]


def tc_index(chroma_qp, tc_div2):
    return chroma_qp + 2 + 2 * tc_div2


def tc_of(chroma_qp, tc_div2):
    """At depth 8; the index is clipped to 0..53."""
    return TC_TABLE[min(max(tc_index(chroma_qp, tc_div2), 0), 53)]


# ---- Ends of tables ----

LOW, HIGH = 50, 205  # so far apart that every delta is clamped to tc, also where two edges cross
ONE_EDGE = {1: (24, 24), 2: (24, 16), 3: (16, 16)}  # by format: sizes with one edge each way in a chroma plane, at 8


def board(x, y):
    """Blocks of 8 by 8, as on a chessboard."""
    return HIGH if (x // 8 + y // 8) % 2 else LOW


def board_after(tc):
    """The samples beside an edge move by tc to each other, and those beside two edges by it twice."""
    def sample(x, y):
        moved = tc * ((x in (7, 8)) + (y in (7, 8)))
        return LOW + moved if board(x, y) == LOW else HIGH - moved
    return sample


def end_case(name, format, qp, tc_div2, own, cb, cr):
    """`cb` and `cr`: a plane's chroma index and the chroma QP that document 01 gives for it. The name has places for
    the plane `own` and the other one. They have different tcs, so that exchanged offsets would show."""
    tcs = [tc_of(chroma_qp, tc_div2) for _, chroma_qp in (cb, cr)]
    assert tcs[0] != tcs[1]
    width, height = ONE_EDGE[format]
    picture = edges(Picture(width, height, format=format, qp=qp, cb_offset=cb[0] - qp, cr_offset=cr[0] - qp,
                            slices=[(0, 6, 6 + tc_div2, 1)]))
    gives = [picture.planes[0]]
    for plane, tc in enumerate(tcs, 1):
        picture.fill(plane, board_after(tc))
        gives.append(picture.planes[plane])
        picture.fill(plane, board)
    words = [f"{PLANES[plane]} (tc {tcs[plane]})" for plane in (own, 1 - own)]
    return Case(f"format {format}: {name.format(*words)}", picture, check=same_as(gives))


def for_each_plane(name, format, qp, tc_div2, one, other):
    """The same for Cb and for Cr."""
    yield end_case(name, format, qp, tc_div2, 0, one, other)
    yield end_case(name, format, qp, tc_div2, 1, other, one)


# The chroma QP that reads the row, the other plane's, the cells' QP, tc div2; what the row is.
TC_ENDS = [(9, 28, 18, -6, "one before the table"), (10, 28, 18, -6, "the first row"), (49, 48, 45, 1, "the last row"),
           (50, 48, 45, 1, "one past the table"), (51, 38, 45, 6, "the furthest past it")]


def index_of(format, chroma_qp):
    """A chroma index with this chroma QP. In 4:2:0 those above 43 are lowered by 6."""
    return chroma_qp + 6 if format == 1 and chroma_qp > 37 else chroma_qp


def tc_ends():
    """TC one row past both ends, as chroma reads it. Rows 0 to 17 are 0: there any move at all shows a wrong row."""
    for format in (1, 2, 3):
        for chroma_qp, other, qp, tc_div2, what in TC_ENDS:
            rows = tc_index(chroma_qp, tc_div2), tc_index(other, tc_div2)
            yield from for_each_plane(f"tc index {rows[0]}, {what}, for {{}}; {rows[1]} for {{}}", format, qp, tc_div2,
                                      (index_of(format, chroma_qp), chroma_qp), (index_of(format, other), other))


# Format; the figure of document 01; chroma index and QP; the other plane's; tc div2, at which each of these chroma
# QPs has a tc of its own; what the index is.
QPC_ENDS = [(1, "Q1: ", (29, 29), (28, 28), 6, "one before table 8-10"),
            (1, "Q1: ", (30, 29), (31, 30), 6, "the first row of table 8-10"),
            (1, "Q1: ", (43, 37), (41, 36), 6, "the last row of table 8-10"),
            (1, "Q1: ", (44, 38), (43, 37), 6, "one past table 8-10"),
            (1, "", (45, 39), (44, 38), 6, "two past table 8-10, no half step"),
            (1, "Q2: ", (57, 51), (56, 50), -1, "the last that the Rust does not clip"),
            (2, "", (51, 51), (50, 50), -1, "the largest"), (2, "Q2: ", (52, 51), (50, 50), -1, "one past the largest"),
            (3, "", (51, 51), (50, 50), -1, "the largest"), (3, "", (52, 51), (50, 50), -1, "one past the largest")]


def qpc_ends():
    """The chroma QP of an index: table 8-10 one row past both ends in 4:2:0, and the largest chroma QP."""
    for format, figure, one, other, tc_div2, what in QPC_ENDS:
        name = f"{figure}chroma index {one[0]} has QP {one[1]}, {what}, for {{}}; {other[0]} has {other[1]} for {{}}"
        yield from for_each_plane(name, format, 37 if one[0] < 50 else 45, tc_div2, one, other)


# The ends of the chroma indices that can occur, -60 and 63, and the Rust's clip at 57 (document 02, C-17): format, chroma
# index and QP, the other plane's, tc div2, what the index is. Every QP is 51.
FAR_ENDS = [(1, (58, 52), (57, 51), -6, "the first that the Rust clips"), (1, (63, 57), (62, 56), -6, "the last"),
            (1, (63, 57), (44, 38), 6, "the last, at the furthest tc index"), (2, (63, 51), (50, 50), -1, "the last"),
            (3, (63, 51), (50, 50), -1, "the last")]


def far_ends():
    for format, one, other, tc_div2, what in FAR_ENDS:
        name = f"C-17: chroma index {one[0]} has QP {one[1]}, {what}, for {{}}; {other[0]} has {other[1]} for {{}}"
        yield from for_each_plane(name, format, 51, tc_div2, one, other)
    for format, (width, height) in ONE_EDGE.items():
        picture = edges(Picture(width, height, format=format, luma_depth=16, qp=-48, cb_offset=-12, cr_offset=-12,
                                slices=[(0, 6, 12, 1)]))
        picture.fill(1, board)
        picture.fill(2, board)
        yield Case(f"format {format}: C-17: chroma index -60, the least, has tc 0 at the largest tc offset", picture,
                   check=stays(picture))


# ---- Averages below zero ----

# QPs of P and Q, their average, tc div2, the Cb and Cr offsets, the figure of document 01. In luma every average below
# 4 has tc 0; here an average down to -8 can have one. Where Cb reads row 17 of TC, which is 0, and Cr row 18, which is
# 1, an average one higher would move Cb, and one lower would leave Cr alone.
AVERAGES = [((-1, -1), -1, 2, 12, 11, ""), ((0, 0), 0, 2, 12, 11, ""), ((-1, -1), -1, 3, 10, 11, ""),
            ((-1, -2), -1, 3, 10, 11, "S7: "), ((-2, -1), -1, 3, 10, 11, ""), ((-2, -2), -2, 3, 11, 12, ""),
            ((-8, -8), -8, 6, 11, 12, "")]


def average_case(vertical, qps, mean, tc_div2, cb, cr, figure):
    """4:2:0 at depth 10, one chroma edge between cells of the two QPs. A chroma QP below 30 is its index."""
    picture = edges(Picture(*((24, 8) if vertical else (8, 24)), format=1, luma_depth=10, chroma_depth=10, cb_offset=cb,
                            cr_offset=cr, slices=[(0, 6, 6 + tc_div2, 1)]))
    picture.set_cells(lambda record, x, y: record.__setitem__(0, 64 + qps[max(x, y) >= 4]))
    gives, words = [picture.planes[0]], []
    for plane, offset in enumerate((cb, cr), 1):
        tc = 4 * tc_of(mean + offset, tc_div2)
        line = 7 * [200] + [200 + tc, 240 - tc] + 3 * [240]
        gives.append(4 * line if vertical else [sample for sample in line for _ in range(4)])
        picture.fill(plane, lambda x, y: 200 if max(x, y) < 8 else 240)
        words.append(f"{tc_index(mean + offset, tc_div2)} for {PLANES[plane - 1]} (tc {tc})")
    edge = "vertical" if vertical else "horizontal"
    name = f"depth 10, {edge} edge: {figure}QPs {qps[0]} and {qps[1]} average to {mean}; tc index {', '.join(words)}"
    return Case(name, picture, check=same_as(gives))


def averages():
    for case in AVERAGES:
        yield average_case(True, *case)
        yield average_case(False, *case)


# ---- The parting ----

class Parting(Case):
    """Where the Rust and the standard part (docs/DIFFERENCES.md, 1): the standard does not clip the chroma index."""

    def __init__(self, name, picture, gives, rust):
        super().__init__(name, picture, check=same_as(gives))
        self.rust = rust


def parting():
    """Chroma index 63: the standard reads tc row 47, which is 13; the Rust clips it to 57 and reads row 41, which is 6."""
    picture = Picture(24, 8, format=1, qp=51, cb_offset=12, slices=[(0, 6, 0, 1)])
    picture.fill(1, lambda x, y: 100 if x < 8 else 120)
    picture.set_cells(lambda record, x, y: record.__setitem__(slice(1, 3), bytes([VERTICAL, 2] if x == 4 else [0, 0])))
    standard, rust = ([picture.planes[0], 4 * (7 * [100] + [p, q] + 3 * [120]), picture.planes[2]]
                      for p, q in [(108, 112), (106, 114)])
    yield Parting("C-17: chroma index 63 is lowered by 6, and not clipped to 57 first", picture, standard, rust)


def check_parting(accepted):
    """`accepted`: cases with their expected planes. The Rust leaves other samples at the parting; with the clip taken out of
    its `qpc` it leaves the expected planes of every picture."""
    unclipped, _ = oracle([case.picture for case, _ in accepted], "unclipped")
    for (case, planes), other in zip(accepted, unclipped):
        assert other == planes, case.name
    partings = [case for case, _ in accepted if isinstance(case, Parting)]
    assert oracle([case.picture for case in partings])[0] == [case.rust for case in partings]
