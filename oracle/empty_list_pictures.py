"""Stored pictures with an empty slice list, which stands for the record 0, 6, 5, 1: document 02, C-13."""

from picture_case import Case, edges, same_as
from picture_records import DEFAULT_SLICE, PLAIN_SLICE, Picture, oracle, random_picture
from records import Random

# QP, bS and the luma tc that document 01's 'Luma' gives at tc offset div2 -1: row QP + 2 * (bS - 1) - 2 of table TC. The
# last row of 0 and the first of 1, for either bS; the highest that the record reaches; and the row of S3.
THRESHOLDS = [(17, 2, 0), (18, 2, 1), (37, 2, 4), (51, 2, 20), (19, 1, 0), (20, 1, 1), (51, 1, 16)]


def step(qp, bs, tc):
    """Format 3 with a step at column 8 in each plane, so large that next to the edge luma moves by exactly tc and one sample
    further by half of it, and chroma, whose tc is the same at bS 2, by tc; and the planes that this gives."""
    high = 100 + 4 * max(tc, 1)
    picture = edges(Picture(16, 8, format=3, qp=qp, slices=()), bs)
    for plane in range(3):
        picture.fill(plane, lambda x, y: 100 if x < 8 else high)
    half, chroma = tc >> 1, tc if bs == 2 else 0
    y = 8 * (6 * [100] + [100 + half, 100 + tc, high - tc, high - half] + 6 * [high])
    c = 8 * (7 * [100] + [100 + chroma, high - chroma] + 7 * [high])
    return picture, [y, c, c]


def thresholds():
    for qp, bs, tc in THRESHOLDS:
        picture, gives = step(qp, bs, tc)
        yield Case(f"C-13: no slice record, QP {qp}, bS {bs}: tc {tc}", picture, check=same_as(gives))
    # S3 by tc 4.
    picture = edges(Picture(16, 8, slices=()))
    picture.fill(0, lambda x, y: 100 if x < 8 else 113)
    line = 4 * [100] + [100, 100, 102, 104, 109, 111, 113, 113] + 4 * [113]
    yield Case("C-13: no slice record, S3's samples", picture, check=same_as([8 * line, [], []]))


def far_apart(random, picture):
    """Blocks of 8 by 8 whose levels lie so far apart that tc decides the samples."""
    for plane in range(3 if picture.format else 1):
        scale = 2 ** ((picture.chroma_depth if plane else picture.luma_depth) - 8)
        across = -(-picture.plane_width(plane) // 8)
        level = [random.below(40) * scale for _ in range(across * -(-picture.plane_height(plane) // 8))]
        picture.fill(plane, lambda x, y: level[y // 8 * across + x // 8])


def otherwise(picture):
    """A check that every plane would be another with offsets 0."""
    def check(planes):
        (plain,), _ = oracle([picture.with_slices(PLAIN_SLICE)])
        assert [own != other for own, other in zip(planes, plain)] == [True] + 2 * [picture.format > 0]
    return check


def twins():
    """Each format without a record, and once more with it."""
    random = Random(41)
    for format, luma, chroma in [(0, 8, 8), (1, 8, 10), (2, 10, 8), (3, 12, 9)]:
        picture = edges(random_picture(random, width=32, height=32, format=format, luma_depth=luma, chroma_depth=chroma,
                                       cb_offset=0, cr_offset=0, columns=[0], rows=[0], slices=[]))
        picture.set_cells(lambda record, x, y: record.__setitem__(0, 64 + 40))
        far_apart(random, picture)
        name = f"format {format}, depths {luma} and {chroma}"
        yield Case(f"C-13: no slice record, {name}", picture, check=otherwise(picture))
        picture = picture.with_slices(DEFAULT_SLICE)
        yield Case(f"C-13: the same with the record 0, 6, 5, 1, {name}", picture, check=otherwise(picture))


def refusals(faults, colour):
    """Only slice 0 is in an empty list; and each cause is answered as with a record, 7 apart, which is about records."""
    for number, answer in [(0, 0), (1, 9), (256, 9)]:
        picture = Picture(8, 8, slices=())
        picture.cells[20:22] = number.to_bytes(2, "little")
        yield Case(f"C-13: no slice record, cell 2 of slice {number}", picture, answer, 2 if answer else 0)
    for number, (name, spoil, place) in faults.items():
        if number != 7:
            picture = colour(slices=())
            spoil(picture)
            yield Case(f"C-13: no slice record, {name}", picture, number, place)
