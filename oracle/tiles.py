#!/usr/bin/env python3
"""The stored pictures of term 3: pictures with many tiles, each with what it is for.

    tiles.py          writes stdin and stdout of crates/tile_cases, and oracle/tiles.txt
    tiles.py --check  says whether those files are what it would write

The samples of a tile are taken out of the oracle's planes of the whole picture, or where the Rust does not decide of the second
program's (run build.sh first); numbers and places of refusals are those of ledger.py. The script cuts each tile out by itself, as
document 01's 'The cut' has it, and stops where the cut is filtered otherwise than the tile in its picture: what is stored was found in
two ways. tiles.txt lists the records: number, answer, name.
"""

import sys

sys.dont_write_bytecode = True

from edgeless_pictures import unconverted
from empty_list_pictures import far_apart, otherwise
from ledger import SCALES, verdict
from palette_pictures import check_turned
from picture_case import Case, check_converted, converted, moves, outright, stays
from picture_records import (HORIZONTAL, LOSSLESS, PALETTE, PCM, PLAIN_SLICE, VERTICAL, Picture, decided, fingerprint, oracle,
                             random_picture)
from pictures import FAR, FAULTS, colour, example, restored, step_at, t1
from records import Random
from stored import is_checking, store

LISTS = 7  # lists lent for a cut: three originals, the cells, three outputs
PLANES = ["Y", "Cb", "Cr"]


# ---- The cut ----

def bounds(starts, number, log2_ctb, total):
    """The first luma column or row of a tile, and where it ends."""
    size = 2 ** log2_ctb
    end = starts[number + 1] * size if number + 1 < len(starts) else total
    return starts[number] * size, end


def crop(samples, width, left, right, top, bottom):
    return [sample for y in range(top, bottom) for sample in samples[y * width + left:y * width + right]]


def tile_planes(picture, planes, i, j):
    """The tile's part of three planes of the picture's size."""
    left, right = bounds(picture.columns, i, picture.log2_ctb, picture.width)
    top, bottom = bounds(picture.rows, j, picture.log2_ctb, picture.height)
    parts = [crop(planes[0], picture.width, left, right, top, bottom)]
    for plane in planes[1:]:
        if picture.format == 0:
            parts.append([])
            continue
        across, down = SCALES[picture.format]
        parts.append(crop(plane, picture.width // across, left // across, right // across, top // down, bottom // down))
    return parts


def cut(picture, i, j):
    """The tile as a picture alone."""
    left, right = bounds(picture.columns, i, picture.log2_ctb, picture.width)
    top, bottom = bounds(picture.rows, j, picture.log2_ctb, picture.height)
    alone = picture.with_fields(width=right - left, height=bottom - top, columns=[0], rows=[0])
    alone.planes = tile_planes(picture, picture.planes, i, j)
    alone.out_lengths = tuple(map(len, alone.planes))
    alone.cells = bytearray(crop(picture.cells, 2 * picture.width, 2 * left, 2 * right, top // 4, bottom // 4))
    return alone


def tiles_of(picture):
    return [(i, j) for j in range(len(picture.rows)) for i in range(len(picture.columns))]


# ---- The text ----

def places(picture):
    """What the program tries: each tile row and one place past it, one place below, and the first tile with each of the lists
    lent for its cut one too short (1 to 7) and one too long (8 to 14)."""
    for j in range(len(picture.rows)):
        for i in range(len(picture.columns) + 1):
            yield i, j, 0
    yield 0, len(picture.rows), 0
    for wrong in range(1, 2 * LISTS + 1):
        yield 0, 0, wrong


def answer_text(picture, answer, planes, i, j, wrong):
    if answer != (0, 0):
        return f"refused {answer[0]} {answer[1]}"
    if i >= len(picture.columns) or j >= len(picture.rows):
        return "no tile"
    if wrong:
        return "lengths"
    return " ".join(["differing 0", *(f"{fingerprint(part):016x}" for part in tile_planes(picture, planes, i, j))])


def lines(number, picture, answer, planes):
    return [f"{number} {i} {j} {wrong} {answer_text(picture, answer, planes, i, j, wrong)}\n"
            for i, j, wrong in places(picture)]


# ---- Pictures ----

def on_border(starts, size, cell):
    """A tile border runs along this cell: on the far side of a start, or on the near side."""
    return any(start and 4 * cell in (start * size, start * size - 4) for start in starts)


def mark_borders(random, picture, marks=(0, 0, LOSSLESS, PCM)):
    """Suppressed cells along the borders of tiles: on one side, on the other, on both and on none."""
    size = 2 ** picture.log2_ctb

    def change(record, x, y):
        if on_border(picture.columns, size, x) or on_border(picture.rows, size, y):
            record[1] = record[1] & 3 | random.pick(*marks)
    picture.set_cells(change)


def border_pairs(picture):
    """Which sides of a border between two tiles are suppressed: the pairs of marks that occur."""
    size = 2 ** picture.log2_ctb
    pairs = set()
    for start in picture.columns[1:]:
        x = start * size // 4
        pairs |= {(picture.suppressed(x - 1, y), picture.suppressed(x, y)) for y in range(picture.height // 4)}
    for start in picture.rows[1:]:
        y = start * size // 4
        pairs |= {(picture.suppressed(x, y - 1), picture.suppressed(x, y)) for x in range(picture.width // 4)}
    return pairs


def edges(picture, plane):
    """The columns and rows of edges in a plane: those on a border between tiles, and those within one."""
    across, down = SCALES[picture.format] if plane else (1, 1)
    size = 2 ** picture.log2_ctb
    border, within = [], []
    for starts, scale, total in [(picture.columns, across, picture.plane_width(plane)),
                                 (picture.rows, down, picture.plane_height(plane))]:
        for edge in range(8, total, 8):
            (border if edge * scale % size == 0 and edge * scale // size in starts else within).append(edge)
    return border, within


class Marked(Case):
    """Suppressed cells lie on either side of the borders. All that can be filtered is filtered."""

    def __init__(self, name, picture):
        super().__init__(name, picture, check=self.check_planes)

    def check_planes(self, planes):
        picture = self.picture
        assert len(border_pairs(picture)) == 4, border_pairs(picture)
        restored(picture)(planes)
        for plane in range(3 if picture.format else 1):
            within = edges(picture, plane)[1]
            assert bool(within) == (picture.planes[plane] != planes[plane]), (self.name, PLANES[plane])


GRIDS = [(4, 56, 40, [0, 1, 2, 3], [0, 1, 2]), (5, 88, 72, [0, 1, 2], [0, 1, 2]), (6, 136, 72, [0, 1, 2], [0, 1]),
         (4, 72, 56, [0, 2, 3], [0, 1, 3])]


def grids():
    """Every format and CTB size, the last tiles not whole CTBs, the depths apart."""
    random = Random(31)
    for format in range(4):
        for log2_ctb, width, height, columns, rows in GRIDS:
            luma, chroma = random.pick((8, 8), (10, 8), (8, 12), (16, 9))
            picture = random_picture(random, width=width, height=height, format=format, luma_depth=luma,
                                     chroma_depth=chroma, log2_ctb=log2_ctb, columns=columns, rows=rows, pcm_switch=1,
                                     slices=[(0, 8, 8, 1), (0, 6, 9, 0)])
            mark_borders(random, busy(random, picture))
            yield Marked(f"format {format}, depths {luma} and {chroma}, CTB {2 ** log2_ctb}, tiles {columns} by {rows}",
                         picture)


def busy(random, picture):
    """Every edge of bS 2 and QPs at which much is filtered."""
    picture.set_cells(lambda record, x, y: record.__setitem__(slice(0, 4), bytes(
        [64 + random.between(36, 46), VERTICAL | HORIZONTAL, 2, 2])))
    return picture


def many():
    random = Random(32)
    for name, width, height, format in [("12 by 12 tiles of one CTB", 192, 192, 0), ("20 by 7 tiles", 320, 112, 1),
                                        ("7 by 22 tiles", 112, 352, 2), ("9 by 8 tiles", 144, 128, 3)]:
        columns, rows = range(width // 16), range(height // 16)
        picture = busy(random, random_picture(random, width=width, height=height, format=format, luma_depth=8,
                                              chroma_depth=8, log2_ctb=4, columns=columns, rows=rows, pcm_switch=1,
                                              slices=[(0, 6, 6, 1)]))
        mark_borders(random, picture)
        yield Marked(f"{name}, format {format}", picture)
    yield Case("one tile is the picture", random_picture(random, width=40, height=24, format=1, columns=[0], rows=[0]))
    yield Case("8 by 8, one tile", random_picture(random, width=8, height=8, format=3, columns=[0], rows=[0]))
    for format in range(4):
        yield Case(f"the last tile is half a CTB each way, format {format}",
                   busy(random, random_picture(random, width=24, height=24, format=format, luma_depth=8, log2_ctb=4,
                                               columns=[0, 1], rows=[0, 1], slices=[PLAIN_SLICE])))


def figures():
    picture = t1([0, 1])
    yield Case("T1: a step at the border of two tiles", picture, check=stays(picture))
    picture = t1([0])
    yield Case("T1 in one tile", picture, check=moves(picture))
    for flag, name in [(LOSSLESS, "lossless"), (0, "not suppressed")]:
        picture = step_at(8, FAR, width=32, height=16, columns=[0, 1])
        picture.fill(0, lambda x, y: 100 if x < 8 else 108 if x < 16 else 112)
        picture.set_cells(lambda record, x, y: record.__setitem__(1, 3 | (flag if x >= 4 else 0)))
        yield Case(f"steps within the left tile and on the border, the right tile {name}", picture, check=moves(picture))


def twins():
    """One cut in two pictures, of other sizes, at other places and with other neighbours."""
    random = Random(33)
    for format in range(4):
        common = dict(format=format, luma_depth=8, chroma_depth=10, log2_ctb=4, cb_offset=3, cr_offset=-5, pcm_switch=1,
                      slices=[(0, 6, 6, 1), (0, 9, 7, 0)])
        first = random_picture(random, width=48, height=32, columns=[0, 1, 2], rows=[0, 1], **common)
        second = random_picture(random, width=64, height=48, columns=[0, 1, 3], rows=[0, 2], **common)
        transplant(first, (16, 16, 16), second, (48, 32))
        yield Case(f"format {format}: tile (1, 1) is tile (2, 1) of the next picture", first)
        yield Case(f"format {format}: tile (2, 1) is tile (1, 1) of the picture before", second)


def transplant(source, square, target, corner):
    """Puts a square of luma samples, with its chroma and cells, into another picture of the same format."""
    x, y, size = square
    for plane in range(3 if source.format else 1):
        across, down = SCALES[source.format] if plane else (1, 1)
        for row in range(size // down):
            for column in range(size // across):
                source_at = (y // down + row) * source.plane_width(plane) + x // across + column
                at = (corner[1] // down + row) * target.plane_width(plane) + corner[0] // across + column
                target.planes[plane][at] = source.planes[plane][source_at]
    for row in range(size // 4):
        source_at = 8 * ((y // 4 + row) * (source.width // 4) + x // 4)
        at = 8 * ((corner[1] // 4 + row) * (target.width // 4) + corner[0] // 4)
        target.cells[at:at + 2 * size] = source.cells[source_at:source_at + 2 * size]


def refusals():
    for number, (name, spoil, place) in FAULTS.items():
        picture = colour(slices=[(0, 6, 6, 1)] * 2)
        spoil(picture)
        yield Case(f"refused: {name}", picture, number, place)
    picture = colour()
    picture.columns, picture.rows = [], []
    yield Case("refused: no tile start", picture, 6, 0)
    picture = Picture(48, 16)
    picture.columns = [0, 2, 1]
    yield Case("refused: starts that fall", picture, 8, 2)
    picture = Picture(8, 8)
    picture.log2_ctb = 2 ** 32 - 1
    yield Case("refused: log2 CTB 4294967295", picture, 4, 0)


def highest():
    """Chroma indices above 57 in 4:2:0 (document 02, C-17): 63 in Cb and 60 in Cr, tc 13 and 9."""
    random = Random(35)
    picture = busy(random, random_picture(random, width=88, height=72, format=1, luma_depth=8, chroma_depth=8, log2_ctb=4,
                                          cb_offset=12, cr_offset=9, columns=[0, 1, 3], rows=[0, 2], pcm_switch=1,
                                          slices=[(0, 6, 0, 1)]))
    picture.set_cells(lambda record, x, y: record.__setitem__(0, 64 + 51))
    mark_borders(random, picture)
    yield Marked("C-17: chroma indices 63 and 60, tiles [0, 1, 3] by [0, 2]", picture)


def empty_lists():
    """No slice record: the list of each cut is empty too (document 02, C-13)."""
    random = Random(36)
    for format in range(4):
        picture = busy(random, random_picture(random, width=56, height=40, format=format, luma_depth=8, chroma_depth=10,
                                              log2_ctb=4, cb_offset=0, cr_offset=0, columns=[0, 1, 3], rows=[0, 2],
                                              pcm_switch=1, slices=[]))
        far_apart(random, picture)
        mark_borders(random, picture)
        yield Case(f"C-13: no slice record, format {format}, tiles [0, 1, 3] by [0, 2]", picture, check=otherwise(picture))


def palette_cells():
    """Palette cells along the borders: each cut carries its cells' marks (document 02, C-19). The PCM switch is off, so that
    nothing else suppresses them."""
    random = Random(37)
    for format in range(4):
        picture = busy(random, random_picture(random, width=56, height=40, format=format, luma_depth=10, chroma_depth=8,
                                              log2_ctb=4, cb_offset=0, cr_offset=0, columns=[0, 1, 3], rows=[0, 2],
                                              pcm_switch=0, slices=[PLAIN_SLICE]))
        mark_borders(random, picture, (0, 0, PALETTE, PALETTE | PCM))
        name = f"C-19: palette cells, format {format}, tiles [0, 1, 3] by [0, 2]"
        yield Marked(name, picture)
        yield Marked(f"{name}; turned", picture.turned())


def edgeless(cases):
    """Strengths without an edge, in the picture's last cell alone and in two converted pictures as they were before: refused in
    every place (document 02, C-14)."""
    random = Random(38)
    picture = busy(random, random_picture(random, width=24, height=24, format=1, luma_depth=8, log2_ctb=4, columns=[0, 1],
                                          rows=[0, 1], slices=[PLAIN_SLICE]))
    picture.cells[-8 + 1] = VERTICAL
    yield Case("C-14: the last cell has a horizontal bS and no edge", picture, 9, len(picture.cells) // 8 - 1)
    yield from map(unconverted, [case for case in cases if case.before][:2])


# A picture of these that has no slice record passes 0, 6, 6, 1 outright (C-13); those that are to have none are `empty_lists`.
GROUPS = [figures, grids, many, twins, refusals, highest, example]


def check_parting(accepted, left):
    """The Rust leaves other samples in both chroma planes of each picture that is left to the second program."""
    parted = [(case, planes) for (case, planes), parts in zip(accepted, left) if parts]
    filtered, _ = oracle([case.picture for case, _ in parted])
    assert parted
    for (case, planes), rust in zip(parted, filtered):
        assert [own == other for own, other in zip(planes, rust)] == [True, False, False], case.name


def check_cuts(accepted):
    """Each cut is filtered as the tile in its picture."""
    cuts = [(case, planes, i, j, cut(case.picture, i, j)) for case, planes in accepted for i, j in tiles_of(case.picture)]
    assert all(verdict(alone) == (0, 0) for *_, alone in cuts)
    filtered, *_ = decided([alone for *_, alone in cuts])
    for (case, planes, i, j, _), own in zip(cuts, filtered):
        assert own == tile_planes(case.picture, planes, i, j), (case.name, i, j)
    return len(cuts)


def opened(picture):
    """The picture as one tile: no border is closed."""
    return picture.with_fields(columns=[0], rows=[0])


def check_borders(accepted):
    """The tiles matter: as one tile, each picture is filtered otherwise; a marked one in every plane that has an edge on a border."""
    tiled = [(case, planes) for case, planes in accepted if len(tiles_of(case.picture)) > 1]
    filtered, *_ = decided([opened(case.picture) for case, _ in tiled])
    for (case, planes), other in zip(tiled, filtered):
        assert planes[0] != other[0], case.name
        for plane in range(3 if case.picture.format else 1):
            if isinstance(case, Marked) and edges(case.picture, plane)[0]:
                assert planes[plane] != other[plane], (case.name, PLANES[plane])


def check_neighbour(accepted):
    """A neighbour's marks move nothing: the left tile is the same beside a lossless tile as beside another."""
    left = [tile_planes(case.picture, planes, 0, 0) for case, planes in accepted if "steps within" in case.name]
    assert len(left) == 2 and left[0] == left[1]


def check_twins(accepted):
    found = [(case, planes) for case, planes in accepted if " is tile " in case.name]
    for (first, ours), (second, theirs) in zip(found[::2], found[1::2]):
        assert cut(first.picture, 1, 1).pack() == cut(second.picture, 2, 1).pack()
        assert tile_planes(first.picture, ours, 1, 1) == tile_planes(second.picture, theirs, 2, 1)


def main():
    checking = is_checking(__doc__)
    cases = [outright(case) for group in GROUPS for case in group()] + [*empty_lists(), *palette_cells()]
    cases = [converted(case) for case in cases]
    cases = [*cases, *edgeless(cases)]
    for case in cases:
        assert verdict(case.picture) == case.answer, (case.name, case.answer, verdict(case.picture))
    filtered, counts, left = decided([case.picture for case in cases if case.answer == (0, 0)])
    accepted = list(zip([case for case in cases if case.answer == (0, 0)], filtered))
    for case, planes in accepted:
        case.look_at(planes)
    tiles = check_cuts(accepted)
    check_borders(accepted)
    check_neighbour(accepted)
    check_twins(accepted)
    check_parting(accepted, left)
    check_turned([case for case, _ in accepted], [(case.answer, planes) for case, planes in accepted])
    changed = check_converted(accepted)
    planes_of = {id(case): planes for case, planes in accepted}
    text = [line for number, case in enumerate(cases, 1)
            for line in lines(number, case.picture, case.answer, planes_of.get(id(case)))]
    names = [(f"{case.answer[0]} {case.answer[1]}", case.name) for case in cases] + [("short", "one byte is missing")]
    files = {"crates/tile_cases/stdin": b"".join(case.picture.pack() for case in cases) + cases[0].picture.pack()[:-1],
             "crates/tile_cases/stdout": ("".join(text) + "short\n").encode(),
             "oracle/tiles.txt": "".join(f"{number:3}  {answer:6}  {name}\n"
                                         for number, (answer, name) in enumerate(names, 1)).encode()}
    store(files, checking)
    print(f"{len(cases)} pictures, {len(accepted)} accepted, {tiles} tiles; {len(files['crates/tile_cases/stdin'])} bytes; {counts};"
          f" left to the second program: {sum(left)}; converted: {changed}")


if __name__ == "__main__":
    main()
