"""Stored pictures made by hand whose samples go far, or do not: document 02, C-23. Each says how far, worked out by hand.

Where a case does not say otherwise, a plane is flat at 200 but for some samples; at another depth than 8 all is that times
2 ** (depth - 8). QP is 51, both offsets are at the top and every edge has bS 2, so that beta is 64 and tc 24.

LUMA: row 10 is 200 255 200 | 200 255 0 200 from column 5 on. The vertical edge is filtered strongly: rows 8 and 11, its lines 0
and 3, are flat. Its q2, column 10, goes from 0 to 48: (200 + 200 + 255 + 0 + 400 + 4) >> 3 is 132, and 2 * tc is 48. Its q0, column
8, becomes (255 + 400 + 400 + 510 + 0 + 4) >> 3, which is 196: column 8 is 200 200 196 200 below the horizontal edge, and nearly
flat. So that edge is filtered strongly too, and its q2, row 10, goes from 48 to 96: (600 + 3 * 48 + 400 + 4) >> 3 is 143.

CB and CR: a sample at the crossing is 0. The first delta is 100 or -100, the second 88 or -88; both are clipped to 24.
"""

from picture_case import edges
from picture_records import HORIZONTAL, LOSSLESS, PALETTE, PCM, PLAIN_SLICE, VERTICAL, Picture
from far_records import TOP_SLICE, depth_of

LUMA = {(6, 10): 255, (9, 10): 255, (10, 10): 0}
CB, CR = {(7, 7): 0}, {(8, 8): 0}
TC_0 = (0, 12, 6, 1)  # tc offset 0: tc is that of QP + 2
NOTHING = (0, 0)


class Made:
    """A picture with a name and its answer; an accepted one with the distance and the place in Y, Cb and Cr, and with what some
    samples end as, by plane and place."""

    def __init__(self, name, picture, far=None, answer=(0, 0), ends=None):
        self.name, self.picture, self.far, self.answer, self.ends = name, picture, far, answer, ends or {}


def blank(width=16, height=16, format=3, depth=8, chroma_depth=None, slice=TOP_SLICE, qp=51, **fields):
    return edges(Picture(width, height, format, depth, chroma_depth or depth, qp=qp, slices=[slice], **fields))


def put(picture, *planes, level=200, shift=(0, 0)):
    """Makes each plane flat but for some samples, moved to the right and down by the shift."""
    for plane, samples in enumerate(planes if picture.format else planes[:1]):
        scale, width = 2 ** (depth_of(picture, plane) - 8), picture.plane_width(plane)
        picture.planes[plane] = [level * scale] * len(picture.planes[plane])
        for (x, y), sample in samples.items():
            picture.planes[plane][(y + shift[1]) * width + x + shift[0]] = sample * scale
    return picture


def both(*other, **fields):
    """All three planes as above."""
    return put(blank(*other, **fields), LUMA, CB, CR)


def scaled(far, depth, chroma_depth):
    return [(distance << (d - 8), place) for (distance, place), d in zip(far, (depth, chroma_depth, chroma_depth))]


WHOLE = ((96, 170), (48, 119), (48, 136))  # of 16 by 16


def bounds_met():
    for format, (width, height, luma_place) in {0: (16, 16, 170), 1: (32, 32, 330), 2: (32, 16, 330), 3: (16, 16, 170)}.items():
        chroma = WHOLE[1:] if format else (NOTHING, NOTHING)
        for depth, chroma_depth in [(8, 8), (16, 16), (8, 16)] if format else [(8, 8), (16, 16)]:
            far = scaled(((96, luma_place), *chroma), depth, chroma_depth)
            yield Made(f"by hand, format {format}, depths {depth} and {chroma_depth}",
                       both(width, height, format, depth, chroma_depth), far)
    picture = put(blank(16, 320, 0), LUMA, shift=(0, 304))
    yield Made("by hand, far down in 16 by 320", picture, ((96, 314 * 16 + 10), NOTHING, NOTHING))


def very_crossing():
    """Sloped lines. Rows 4 and 7 are 60 180 120 60 | 119 119 119 119 from column 4 on: 180 - 2 * 120 + 60 is 0, and the step of 59 is
    low enough, so the vertical edge is filtered strongly there, and column 7 goes from 60 to 108: (180 + 240 + 120 + 238 + 119 + 4) >> 3
    is 112. Column 7 is then 108 228 168 108 | 167 167 167 167 from row 4 on, and column 4 flat: 228 - 2 * 168 + 108 is 0 again, and row 7
    goes from 108 to 156: (228 + 336 + 216 + 334 + 167 + 4) >> 3 is 160. Below the crossing the vertical edge is too rough."""
    across = dict(zip(range(4, 12), (60, 180, 120, 60, 119, 119, 119, 119)))
    samples = {(x, y): sample for y in (4, 7) for x, sample in across.items()}
    samples.update({(x, y): sample for y, sample in ((5, 228), (6, 168)) for x in range(5, 12)})
    samples.update({(7, y): 167 for y in range(8, 12)})
    for depth in (8, 12):
        yield Made(f"by hand, in luma at the very crossing, depth {depth}", put(blank(16, 16, 0, depth), samples, level=60),
                   scaled(((96, 119), NOTHING, NOTHING), depth, depth))


def third_from_the_edge():
    """Rows 4 and 7 are 130 42 86 130 | 130 130 130 130 from column 4 on: 42 - 2 * 86 + 130 is 0, so the vertical edge is filtered
    strongly, and column 5 goes from 42 to 90: (260 + 126 + 86 + 130 + 130 + 4) >> 3 is 92. In rows 5 and 6 column 5 goes from 200 to 152.
    Columns 4 and 7 are then flat above the horizontal edge, at 130 and 108, and 155 below it, and row 7 of column 5 goes from 90 to 138:
    (152 + 304 + 180 + 310 + 155 + 4) >> 3 is 138."""
    samples = {(x, y): 155 for x in range(16) for y in range(8, 16)}
    for rows, row in [((4, 7), (42, 86)), ((5, 6), (200, 60, 108, 108, 108, 108, 108))]:
        samples.update({(5 + number, y): sample for y in rows for number, sample in enumerate(row)})
    yield Made("by hand, third from one edge and next to the other", put(blank(16, 16, 0), samples, level=130),
               ((96, 7 * 16 + 5), NOTHING, NOTHING))


def side_by_side():
    """The picture of crates/bounds_met: no edge in the upper half, offsets 0. In luma the 0 and the 192 of row 10, columns 7 and 8, both
    end at 96. The first sample that goes so far is the 255 of row 8, column 5: (200 + 765 + 180 + 100 + 60 + 4) >> 3 is 163, so it goes to
    207; then column 5 is 180 180 180 180 | 207 75 60 207, (180 + 360 + 414 + 150 + 60 + 4) >> 3 is 146, and it goes to 159. In chroma the
    0 and the 96 of row 8 both end at 48."""
    rows = {y: (100, 180, 180, 180, 20, 20, 20, 20) if y < 8 else (100, 255, 180, 100, 60, 30, 0, 60) for y in range(16)}
    rows.update({9: (100, 60, 20, 100, 100, 180, 60, 60), 10: (100, 30, 0, 0, 192, 180, 20, 60)})
    luma = {(4 + number, y): sample for y, row in rows.items() for number, sample in enumerate(row)}
    chroma = {(x, y): 200 for x in range(8) for y in range(16)}
    chroma.update({(7, 8): 0, (8, 8): 96})
    for depth in (8, 16):
        picture = put(blank(depth=depth, slice=PLAIN_SLICE), luma, {}, {}, level=100)
        picture.planes[1:] = put(blank(depth=depth), {}, chroma, chroma, level=0).planes[1:]
        picture.set_cells(lambda record, x, y: record.__setitem__(slice(1, 4), bytes(3 if y < 2 else [3, 2, 2])))
        one = {(0, 10 * 16 + 7): 96, (0, 10 * 16 + 8): 96, **{(plane, 8 * 16 + x): 48 for plane in (1, 2) for x in (7, 8)}}
        yield Made(f"by hand, two samples side by side that end as one, depth {depth}", picture,
                   scaled(((96, 8 * 16 + 5), (48, 8 * 16 + 7), (48, 8 * 16 + 7)), depth, depth),
                   ends={place: sample << (depth - 8) for place, sample in one.items()})


def nothing_moves():
    still = (NOTHING, NOTHING, NOTHING)
    yield Made("flat, every edge", put(blank(), {}, {}, {}), still)
    yield Made("flat at 0", put(blank(), {}, {}, {}, level=0), still)
    picture = both()
    picture.set_cells(lambda record, x, y: record.__setitem__(slice(1, 4), bytes(3)))
    yield Made("no edges", picture, still)
    picture = both()
    picture.set_cells(lambda record, x, y: record.__setitem__(slice(2, 4), bytes(2)))
    yield Made("bS 0 at every edge", picture, still)
    yield Made("the slice is disabled", both(slice=(1, 12, 12, 1)), still)
    yield Made("8 by 8, which has no edge within", put(blank(8, 8), {(5, 5): 0}, {(7, 7): 0}, {(0, 0): 0}), still)
    yield Made("the four cells at the crossing are lossless", marked(LOSSLESS, [5, 6, 9, 10]), still)


def marked(mark, cells, **fields):
    picture = both(**fields)
    for cell in cells:
        picture.cells[8 * cell + 1] |= mark
    return picture


def one_cell():
    """Cell 10, columns and rows 8 to 11, keeps its samples. Row 10 before it becomes 207 214 221: column 6 goes by 41, and column 7 is
    then too rough for the horizontal edge to be filtered strongly; the weak filter moves nothing. CR: (7, 8) goes by 24 in the
    first pass; in the second (8, 7) does, and (7, 7) and (7, 8) go by 12 towards each other."""
    kept = ((41, 166), (48, 119), (24, 120))
    yield Made("the cell right below the crossing is lossless", marked(LOSSLESS, [10]), kept)
    yield Made("it is palette", marked(PALETTE, [10]), kept)
    yield Made("it is PCM, switch on", marked(PCM, [10], pcm_switch=1), kept)
    yield Made("it is PCM, switch off", marked(PCM, [10]), WHOLE)


def one_pass():
    """Half of it, and the first sample is told. The vertical edge moves (9, 10) by 48 too, to 207: (200 + 200 + 255 + 0 + 2) >> 2 is
    164. The horizontal edge moves (10, 9) so far, to 152: (600 + 0 + 2) >> 2 is 150. In chroma both samples next to an edge go by
    24."""
    picture = both()
    picture.set_cells(lambda record, x, y: record.__setitem__(slice(1, 4), bytes([VERTICAL, 2, 0])))
    yield Made("vertical edges alone", picture, ((48, 169), (24, 119), (24, 135)))
    picture = both()
    picture.set_cells(lambda record, x, y: record.__setitem__(slice(1, 4), bytes([HORIZONTAL, 0, 2])))
    yield Made("horizontal edges alone", picture, ((48, 154), (24, 119), (24, 120)))
    for name, columns, far in [("is a tile's border", [0, 1], ((48, 306), (24, 239), (24, 240))),
                               ("lies in a tile", [0], ((96, 338), (48, 239), (48, 272)))]:
        picture = put(blank(32, 16, columns=columns), LUMA, CB, CR, shift=(8, 0))
        yield Made(f"the vertical edge {name}", picture, far)


def smaller_tc():
    """Rows 51 and 52 of the tc table have 20 and 22, row 53 the largest, 24. In 4:2:0 the chroma QP of 51 is 45: row 47 has 13."""
    yield Made("QP 51, tc offset 0: row 53", both(slice=TC_0), WHOLE)
    yield Made("QP 50, tc offset 0: row 52, tc 22", both(slice=TC_0, qp=50), ((88, 170), (44, 119), (44, 136)))
    yield Made("QP 51 in 4:2:0, tc offset 0: row 53 in luma, 47 in chroma", both(32, 32, 1, slice=TC_0),
               ((96, 330), (26, 119), (26, 136)))
    step_below = (0, 12, 11, 1)
    yield Made("tc offset one step below the top, QP 51: row 53 all the same", both(slice=step_below), WHOLE)
    yield Made("tc offset at the top, QP 39: row 53", both(qp=39), WHOLE)
    yield Made("tc offset one step below the top, QP 39: row 51, tc 20", both(slice=step_below, qp=39),
               ((80, 170), (40, 119), (40, 136)))


def with_second(picture):
    """The same samples once more, 16 columns to the right."""
    for plane, samples in enumerate((LUMA, CB, CR)):
        for (x, y), sample in samples.items():
            picture.planes[plane][32 * y + x + 16] = sample
    return picture


def equally_far():
    """At level 128 a sample can go 96 either way. Row 10 has 192 0 or 64 255 in columns 9 and 10: column 8 stays 128 in both cases, and
    column 10 goes to 48 and to 96, or to 207 and to 159."""
    yield Made("two samples equally far: the first is told", with_second(both(32, 16)), ((96, 330), (48, 231), (48, 264)))
    picture = with_second(both(32, 16, slice=TC_0))
    picture.set_cells(lambda record, x, y: record.__setitem__(0, 64 + (50 if x < 4 else 51)))
    yield Made("two samples, the second farther, where QP is 51 and not 50", picture, ((96, 346), (48, 247), (48, 280)))
    up, down = {(9, 10): 192, (10, 10): 0}, {(9, 10): 64, (10, 10): 255}
    for name, first, second in [("up, then one down", up, down), ("down, then one up", down, up)]:
        luma = {**first, **{(x + 16, y): sample for (x, y), sample in second.items()}}
        yield Made(f"a sample {name}: the first is told", put(blank(32, 16, 0), luma, level=128), ((96, 330), NOTHING, NOTHING))


def ends():
    """The first and the last sample of a plane that an edge can move. In luma they lie on a line of the decision: 207 among 200 is
    rough by 7, where 8 would be too much, and becomes 203. In chroma the last has p0 go from 250 to 255, the largest, and q0 all the
    way from 255 to 231."""
    picture = put(blank(), {(5, 0): 207}, {(7, 0): 0}, {(7, 0): 0, (8, 0): 255})
    yield Made("the first sample that can move", picture, ((4, 5), (24, 7), (24, 7)))
    last = {(6, 15): 255, (7, 15): 250, (8, 15): 255, (9, 15): 0}
    yield Made("the last sample that can move", put(blank(), {(10, 15): 207}, last, last), ((4, 250), (24, 248), (24, 248)))


def stepped(low, high, chroma_high):
    """A step at column 8."""
    picture = blank(16, 8)
    for plane, right in enumerate((high, high, chroma_high)):
        picture.fill(plane, lambda x, y: low if x < 8 else right)
    return picture


def weak():
    """A step of 60 is too high for the strong filter, one of 59 is not. Of a step s delta is (6 * s + 8) >> 4 in luma and
    (3 * s + 4) >> 3 in chroma: 23 and 23 of 60, 24 and 24 of 64, more of 100, which is clipped to 24, and 22 in chroma of 59. The
    strong filter moves p0 by (3 * 59 + 4) >> 3, which is 22. Last, 40 in one quarter and 140 in the others: the sample in the corner
    goes to 64, and then to 88, by the weak filter both times."""
    yield Made("weak: a step of 60", stepped(100, 160, 200), ((23, 7), (23, 7), (24, 7)))
    yield Made("weak: a step of 64", stepped(100, 164, 100), ((24, 7), (24, 7), NOTHING))
    yield Made("strong: a step of 59", stepped(100, 159, 160), ((22, 7), (22, 7), (23, 7)))
    picture = blank()
    for plane in range(3):
        picture.fill(plane, lambda x, y: 40 if x < 8 and y < 8 else 140)
    yield Made("weak in both passes", picture, ((48, 119), (48, 119), (48, 119)))


def refused():
    picture = both()
    picture.planes[1][3] = 256
    yield Made("a sample of Cb too large", picture, answer=(10, 259))
    picture = both()
    picture.cells[8 * 5 + 1] = HORIZONTAL
    yield Made("cell 5 has a vertical bS and no edge", picture, answer=(9, 5))
    yield Made("log2 CTB 7", both(log2_ctb=7), answer=(4, 0))


def made():
    groups = [bounds_met, very_crossing, third_from_the_edge, side_by_side, nothing_moves, one_cell, one_pass, smaller_tc,
              equally_far, ends, weak, refused]
    return [case for group in groups for case in group()]
