#!/usr/bin/env python3
"""The stored pictures of the stage, each with what it is for.

    pictures.py          writes stdin and stdout of crates/picture_cases, and oracle/pictures.txt
    pictures.py --check  says whether those files are what it would write

The planes of accepted pictures are the oracle's, or where the Rust does not decide the second program's (run
build.sh first), the numbers and places of refusals those of ledger.py. Every case says which number and place it expects, and some what the planes hold; the
script stops where they are not so. pictures.txt lists the records: number, answer, name.
"""

import sys

sys.dont_write_bytecode = True

import edgeless_pictures
import empty_list_pictures
import palette_pictures
from chroma_pictures import averages, check_parting, far_ends, parting, qpc_ends, tc_ends
from ledger import SCALES
from picture_case import Case, check_converted, converted, edges, marked_picture, moves, outright, same_as, stays
from picture_records import (HORIZONTAL, LOSSLESS, PALETTE, PCM, PLAIN_SLICE, VERTICAL, Picture, expected, random_picture,
                             tally, unpack)
from records import Random
from stored import ROOT, is_checking, store


# ---- Document 01's figures ----

SEGMENTS = {
    "S1": (37, 104, [100, 101, 101, 102, 103, 103, 104, 104]),
    "S2": (37, 112, [100, 102, 103, 105, 108, 109, 111, 112]),
    "S3": (37, 113, [100, 100, 102, 105, 108, 111, 113, 113]),
    "S4": (37, 231, [100, 100, 102, 105, 226, 229, 231, 231]),
    "S5": (37, 232, [100, 100, 100, 100, 232, 232, 232, 232]),
    "S6": (15, 104, [100, 100, 100, 100, 104, 104, 104, 104]),
}


def figures():
    for name, (qp, q, gives) in SEGMENTS.items():
        line = 4 * [100] + gives + 4 * [q]
        picture = edges(Picture(16, 8, qp=qp))
        picture.fill(0, lambda x, y: 100 if x < 8 else q)
        yield Case(f"{name}, vertical edge", picture, check=same_as([8 * line, [], []]))
        picture = edges(Picture(8, 16, qp=qp))
        picture.fill(0, lambda x, y: 100 if y < 8 else q)
        yield Case(f"{name}, horizontal edge", picture, check=same_as([[s for s in line for _ in range(8)], [], []]))
    for name, qp, p, q in [("K1", 37, 54, 56), ("K2", 30, 53, 57)]:
        picture = edges(Picture(32, 16, format=1, qp=qp))
        gives = [picture.planes[0]]
        for plane in (1, 2):
            picture.fill(plane, lambda x, y: 50 if x < 8 else 60)
            gives.append(8 * (7 * [50] + [p, q] + 7 * [60]))
        yield Case(f"{name}, vertical edge in both chroma planes", picture, check=same_as(gives))


def step_at(column, row, **fields):
    """Luma 100 before the column and row, 108 after either, and every edge set."""
    picture = edges(Picture(**fields))
    picture.fill(0, lambda x, y: 108 if x >= column or y >= row else 100)
    return picture


FAR = 10 ** 6  # past every picture


def t1(columns):
    """T1: a step at column 16, which is a tile's border where the columns say so."""
    return step_at(16, FAR, width=32, height=16, columns=columns)


def tile_figures():
    picture = t1([0, 1])
    yield Case("T1: columns 0, 1: nothing crosses column 16", picture, check=stays(picture))
    picture = t1([0])
    yield Case("T1 with columns 0: it crosses", picture, check=moves(picture))
    picture = step_at(FAR, 16, width=16, height=32, rows=[0, 1])
    yield Case("rows 0, 1: nothing crosses row 16", picture, check=stays(picture))
    picture = step_at(FAR, 16, width=16, height=32)
    yield Case("rows 0: it crosses row 16", picture, check=moves(picture))
    picture = step_at(8, FAR, width=32, height=16, columns=[0, 1])
    yield Case("columns 0, 1: column 8 lies within a tile", picture, check=moves(picture))


def band_figures():
    """The bands change nothing: each picture gives what it gives in one band, at log2 CTB 6."""
    random = Random(2)
    for name, height in [("B2: height 24, CTB 16: bands end at 20, 24", 24), ("height 16, CTB 16: one band", 16),
                         ("B1: height 64, CTB 16: bands end at 20, 36, 52, 64", 64)]:
        for format in (0, 1):
            picture = edges(random_picture(random, width=16, height=height, format=format, luma_depth=8,
                                           slices=[PLAIN_SLICE], columns=[0], rows=[0]))
            picture.set_cells(lambda record, x, y: record.__setitem__(0, 64 + 40))
            for log2_ctb in (4, 6):
                again = picture.with_fields(log2_ctb=log2_ctb)
                yield Case(f"{name}; format {format}, run at log2 CTB {log2_ctb}", again)


# ---- Accepted pictures ----

SIZES = {0: (24, 16), 1: (32, 24), 2: (32, 16), 3: (16, 16)}  # each has an edge in every plane


def formats_and_depths():
    random = Random(3)
    for format in range(4):
        width, height = SIZES[format]
        for depth in range(8, 17):
            chroma = 24 - depth if depth != 12 else 8
            yield Case(f"format {format}, depths {depth} and {chroma}",
                       random_picture(random, width=width, height=height, format=format, luma_depth=depth,
                                      chroma_depth=chroma))


def sizes():
    random = Random(4)
    for log2_ctb in (4, 5, 6):
        for width, height in [(8, 8), (8, 40), (40, 8), (24, 24), (56, 24), (72, 24)]:
            format = (width // 8 + log2_ctb) % 3
            yield Case(f"{width} by {height}, log2 CTB {log2_ctb}, format {format}",
                       random_picture(random, width=width, height=height, format=format, log2_ctb=log2_ctb))


def tiles():
    random = Random(5)
    yield Case("20 tile columns", random_picture(random, width=320, height=8, format=0, log2_ctb=4,
                                                 columns=range(20), rows=[0]))
    yield Case("20 of 21 columns, the last of them half a CTB",
               random_picture(random, width=328, height=8, format=1, log2_ctb=4, columns=range(20), rows=[0]))
    yield Case("22 tile rows", random_picture(random, width=8, height=352, format=0, log2_ctb=4, columns=[0],
                                              rows=range(22)))
    for name, starts in [("one tile", [0]), ("tiles 0, 1, 2", [0, 1, 2]), ("tiles 0, 2", [0, 2])]:
        yield Case(f"{name} across, CTB 64", random_picture(random, width=136, height=8, format=1, log2_ctb=6,
                                                            columns=starts, rows=[0]))
        yield Case(f"{name} down, CTB 64", random_picture(random, width=8, height=136, format=2, log2_ctb=6,
                                                          columns=[0], rows=starts))
    for format in range(4):
        for log2_ctb, height, columns, rows in [(4, 24, [0, 1, 2], [0, 1]), (5, 40, [0, 1], [0, 1])]:
            yield Case(f"tiles {columns} by {rows}, log2 CTB {log2_ctb}, format {format}",
                       random_picture(random, width=40, height=height, format=format, log2_ctb=log2_ctb,
                                      columns=columns, rows=rows))


def slices():
    random = Random(6)
    for name, records in [("record 0, 6, 6, 1", [PLAIN_SLICE]), ("disabled", [(1, 6, 6, 1)]), ("offsets 0 and 0", [(0, 0, 0, 1)]),
                          ("offsets 12 and 12", [(0, 12, 12, 1)]), ("offsets 0 and 12", [(0, 0, 12, 1)]),
                          ("offsets 12 and 0", [(0, 12, 0, 1)]),
                          ("two, the second not across", [(0, 6, 6, 1), (0, 6, 6, 0)]),
                          ("two, the first not across", [(0, 6, 6, 0), (0, 6, 6, 1)]),
                          ("two, the second disabled", [(0, 6, 6, 1), (1, 6, 6, 1)]),
                          ("two, the first disabled", [(1, 6, 6, 1), (0, 6, 6, 1)]),
                          ("two of different offsets", [(0, 0, 12, 1), (0, 12, 0, 1)]),
                          ("four of all kinds", [(0, 3, 9, 1), (1, 6, 6, 0), (0, 12, 12, 0), (0, 6, 6, 1)])]:
        format = len(name) % 4
        picture = random_picture(random, width=32, height=16, format=format, slices=records)
        yield Case(f"slices: {name}; format {format}", picture)
    records = [(n % 5 == 1, n % 13, 12 - n % 13, n % 2) for n in range(600)]
    picture = random_picture(random, width=32, height=16, format=1, slices=records)
    yield Case("600 slice records", picture)
    picture = random_picture(random, width=16, height=16, format=1, slices=records, columns=[0], rows=[0])
    picture.set_cells(lambda record, x, y: record.__setitem__(slice(4, 6), (599).to_bytes(2, "little")))
    yield Case("600 slice records, every cell of the last", picture)


def restored(picture):
    """A check that each suppressed cell has its original samples."""
    def check(planes):
        for plane in range(3 if picture.format else 1):
            across, down = SCALES[picture.format] if plane else (1, 1)
            width = picture.plane_width(plane)
            for number, (before, after) in enumerate(zip(picture.planes[plane], planes[plane])):
                x, y = number % width * across, number // width * down
                assert before == after or not picture.suppressed(x // 4, y // 4)
        assert planes != picture.planes
    return check


def suppressed():
    random = Random(7)
    for format in range(4):
        for switch in (0, 1):
            picture = marked_picture(random, format, switch, 0, 0, LOSSLESS, PCM, PCM)
            yield Case(f"lossless and PCM cells, switch {switch}, format {format}", picture, check=restored(picture))
    for name, flag, switch, check in [("lossless", LOSSLESS, 0, stays), ("PCM, switch on", PCM, 1, stays),
                                      ("PCM, switch off", PCM, 0, moves), ("both marks, switch off", 12, 0, stays)]:
        picture = step_at(8, 8, width=16, height=16, pcm_switch=switch)
        picture.set_cells(lambda record, x, y: record.__setitem__(1, 3 | flag))
        yield Case(f"every cell {name}", picture, check=check(picture))
    picture = step_at(8, 16, width=16, height=8, pcm_switch=0)
    picture.set_cells(lambda record, x, y: record.__setitem__(1, 3 | (LOSSLESS if x < 2 else 0)))
    yield Case("P's side is lossless, Q's is filtered all the same", picture, check=moves(picture))


def quantizers():
    random = Random(8)
    for depth in (9, 10, 12, 14, 16):
        lowest = -6 * (depth - 8)
        picture = random_picture(random, width=32, height=16, format=1, luma_depth=depth, chroma_depth=depth,
                                 slices=[(0, 12, 12, 1)])

        def change(record, x, y):
            record[0] = 64 + random.pick(lowest, lowest + 1, -1, 0, 51, 51, 50)
        picture.set_cells(change)
        yield Case(f"depth {depth}: QPs from {lowest} to 51", picture)
    for format in (1, 2, 3):
        for cb, cr in [(-12, 12), (12, -12), (-12, -12), (12, 12)]:
            width, height = (32, 16) if format == 1 else (32, 8) if format == 2 else (16, 16)
            yield Case(f"format {format}, Cb offset {cb}, Cr offset {cr}",
                       random_picture(random, width=width, height=height, format=format, cb_offset=cb, cr_offset=cr))
    for qp in range(16, 52, 5):
        picture = edges(random_picture(random, width=32, height=16, format=1, luma_depth=8, slices=[PLAIN_SLICE]))
        picture.set_cells(lambda record, x, y: record.__setitem__(0, 64 + qp))
        yield Case(f"every QP {qp}", picture)


def strengths():
    random = Random(9)
    for bs in (0, 1, 2):
        picture = edges(random_picture(random, width=32, height=16, format=1, luma_depth=8, slices=[PLAIN_SLICE]), bs)
        yield Case(f"every bS {bs}", picture, check=stays(picture) if bs == 0 else None)
    picture = step_at(8, 8, width=16, height=16)
    picture.set_cells(lambda record, x, y: record.__setitem__(1, 0))
    yield Case("bS 2 and no edge flag", picture, check=stays(picture))


def largest_samples():
    for depth in (8, 12, 16):
        largest = 2 ** depth - 1
        for name, low, high in [("0 and a bit more", 0, 4 * 2 ** (depth - 8)), ("all the largest", largest, largest),
                                ("0 and the largest", 0, largest)]:
            picture = edges(Picture(32, 16, format=1, luma_depth=depth, chroma_depth=depth, qp=45))
            for plane in range(3):
                picture.fill(plane, lambda x, y: high if (x // 8 + y // 8) % 2 else low)
            yield Case(f"depth {depth}: {name}", picture)


def at_random():
    random = Random(20)
    for number in range(1, 6):
        yield Case(f"random {number}", random_picture(random, 48, 40))


def example():
    """The shipped example: four tiles, four slices, lossless and PCM cells. README.md prints how many samples move."""
    data = (ROOT / "examples" / "example.pic").read_bytes()
    (picture, _), = unpack(data)
    assert picture.pack() == data

    def check(planes):
        restored(picture)(planes)
        moved = [sum(a != b for a, b in zip(*pair)) for pair in zip(picture.planes, planes)]
        assert moved == [6435, 941, 881], moved
    yield Case("examples/example.pic", picture, check=check)


# ---- Refusals ----

def small():
    """8 by 8, format 0: four cells."""
    return Picture(8, 8)


def colour(**fields):
    """16 by 8, format 1: 128, 32 and 32 samples, 8 cells."""
    return Picture(16, 8, format=1, **fields)


def refused(name, number, place, picture, **fields):
    """The picture with fields changed; its lists and lengths stay."""
    for field, value in fields.items():
        assert hasattr(picture, field)
        setattr(picture, field, value)
    return Case(name, picture, number, place)


def with_item(items, number, value):
    items[number] = value
    return items


def settings():
    for n in (0, 4, 7, 9, 12, 8191, 8193, 8196, 8200, 2 ** 31, 2 ** 32 - 8, 2 ** 32 - 1):
        yield refused(f"width {n}", 1, 0, small(), width=n)
        yield refused(f"height {n}", 1, 0, small(), height=n)
    for n in (16, 8184, 8192):
        yield refused(f"width {n}, which is allowed, and lists of 8 by 8", 6, 0, small(), width=n)
        yield refused(f"height {n}, which is allowed, and lists of 8 by 8", 6, 0, small(), height=n)
    for n in (4, 5, 256, 2 ** 32 - 1):
        yield refused(f"format {n}", 2, 0, small(), format=n)
    for n in (7, 17, 0, 24, 2 ** 32 - 1):
        for base in (small, colour):
            yield refused(f"luma depth {n}, format {base().format}", 3, 0, base(), luma_depth=n)
            yield refused(f"chroma depth {n}, format {base().format}", 3, 0, base(), chroma_depth=n)
    for n in (3, 7, 0, 32, 36, 2 ** 32 - 1):
        yield refused(f"log2 CTB {n}", 4, 0, small(), log2_ctb=n)
    for n in (13, -13, 2 ** 31 - 1, -2 ** 31):
        for base in (small, colour):
            yield refused(f"Cb offset {n}, format {base().format}", 5, 0, base(), cb_offset=n)
            yield refused(f"Cr offset {n}, format {base().format}", 5, 0, base(), cr_offset=n)
    for n in (12, -12):
        yield refused(f"both offsets {n} are allowed in format 0", 0, 0, small(), cb_offset=n, cr_offset=n)
    yield refused("8 by 8, nothing wrong", 0, 0, small())
    yield refused("16 by 8, format 1, nothing wrong", 0, 0, colour())


def lengths():
    yield refused("8 by 8, format 0, 63 luma samples", 6, 0, small(), planes=[63 * [100], [], []])
    for format in range(4):
        def base():
            return Picture(8, 8, format=format)
        for plane, name in enumerate(["Y", "Cb", "Cr"]):
            length = len(base().planes[plane])
            for n in [length - 1, length + 1] if length else [1]:
                planes, outs = list(base().planes), list(base().out_lengths)
                planes[plane], outs[plane] = n * [100], n
                yield refused(f"format {format}: {n} original samples of {name}", 6, 0, base(), planes=planes)
                yield refused(f"format {format}: {n} output samples of {name}", 6, 0, base(), out_lengths=tuple(outs))
    for format in (0, 2, 3):
        yield refused(f"planes of format 1, format {format}", 6, 0, colour(), format=format)
    yield refused("no output samples at all", 6, 0, colour(), out_lengths=(0, 0, 0))
    yield refused("no original samples at all", 6, 0, colour(), planes=[[], [], []])
    cells = small().cells
    for n in (0, 8, 24, 31, 33, 40):
        yield refused(f"{n} bytes of cells for four", 6, 0, small(), cells=(2 * cells)[:n])
    for n in (1, 2, 3, 5, 6, 7, 2399, 2401, 2404, 2408):
        yield refused(f"{n} bytes of slices", 6, 0, small(), slices=bytearray([0, 6, 6, 1] * 603)[:n])
    for n in (0, 21, 22):
        yield refused(f"{n} tile columns", 6, 0, Picture(352, 8) if n == 21 else small(), columns=list(range(n)))
    for n in (0, 23, 24):
        yield refused(f"{n} tile rows", 6, 0, Picture(8, 368) if n == 23 else small(), rows=list(range(n)))


def slice_records():
    good = [0, 6, 6, 1]
    for count, number in [(1, 0), (3, 0), (3, 2), (600, 599)]:
        bad = [(0, 2), (1, 13), (2, 13), (3, 2)] if count < 600 else [(1, 13)]
        for byte, value in bad:
            records = with_item(bytearray(good * count), 4 * number + byte, value)
            yield refused(f"slice record {number} of {count}: byte {byte} is {value}", 7, number, small(),
                          slices=records)
    for byte in range(4):
        yield refused(f"slice record 1: byte {byte} is 255", 7, 1, small(),
                      slices=with_item(bytearray(good * 2), 4 + byte, 255))
    for record in [(0, 0, 0, 0), (1, 12, 12, 1)]:
        yield refused(f"slice record {record} is allowed", 0, 0, small(), slices=bytearray(record))
    yield refused("slice records 1 and 3 are bad: the first counts", 7, 1, small(),
                  slices=with_item(with_item(bytearray(good * 4), 7, 2), 12, 2))


def tile_starts():
    def wide(**fields):
        return Picture(64, 8, **fields)

    def high(**fields):
        return Picture(8, 64, **fields)
    for starts, place in [([1], 0), ([1, 2], 0), ([65535], 0), ([0, 0], 1), ([0, 2, 2], 2), ([0, 2, 1], 2), ([0, 4], 1),
                          ([0, 1, 2, 3, 4], 4), ([0, 65535], 1), ([0, 5, 4], 1), ([0, 3, 1, 0], 2), ([1, 0], 0)]:
        yield refused(f"tile columns {starts} of 4 CTBs", 8, place, wide(), columns=starts)
        yield refused(f"tile rows {starts} of 4 CTBs", 8, 1 + place, high(), rows=starts)
    yield refused("tile rows [0, 1] of one CTB, after three columns", 8, 4, wide(), columns=[0, 1, 3], rows=[0, 1])
    yield refused("a bad column and a bad row: the column counts", 8, 2, wide(), columns=[0, 1, 1], rows=[1])
    yield refused("tile columns [0, 3] of 3.5 CTBs", 0, 0, Picture(56, 8), columns=[0, 3])
    yield refused("tile columns [0, 4] of 3.5 CTBs", 8, 1, Picture(56, 8), columns=[0, 4])
    yield refused("tile columns [0, 1] of 1.25 CTBs of 64", 0, 0, Picture(80, 8, log2_ctb=6), columns=[0, 1])
    yield refused("tile columns [0, 2] of 1.25 CTBs of 64", 8, 1, Picture(80, 8, log2_ctb=6), columns=[0, 2])
    yield refused("tile rows [0, 2] of 1.5 CTBs of 32", 8, 2, Picture(8, 48, log2_ctb=5), rows=[0, 2])


def cells():
    def bad(name, cell, byte, value, picture=None, number=9):
        picture = picture or colour()
        picture.cells[8 * cell + byte] = value
        return Case(name, picture, number, cell if number else 0)
    picture = small()
    yield bad("depth 8, cell 2 has QP byte 63", 2, 0, 63, picture)
    for depth in range(8, 17):
        lowest = 64 - 6 * (depth - 8)
        yield bad(f"luma depth {depth}: QP byte {lowest}", 3, 0, lowest, Picture(8, 8, luma_depth=depth), 0)
        yield bad(f"luma depth {depth}: QP byte {lowest - 1}", 3, 0, lowest - 1, Picture(8, 8, luma_depth=depth))
    yield bad("luma depth 8, chroma depth 16: QP byte 63", 1, 0, 63, colour(chroma_depth=16))
    yield bad("QP byte 115", 1, 0, 115, small(), 0)
    for cell in (0, 3, 7):
        for byte, values in [(0, (0, 116, 255)), (1, (16, 32, 64, 128)), (2, (3, 255)), (3, (3, 255)), (4, (1,)),
                             (5, (1,)), (6, (1,)), (7, (255,))]:
            for value in values if cell == 3 else values[:1]:
                allowed = (byte, value) == (1, PALETTE)
                yield bad(f"cell {cell}: byte {byte} is {value}", cell, byte, value, number=0 if allowed else 9)
    yield bad("cell 3: all flags of document 01", 3, 1, 15, small(), 0)
    for name, count in [("the record 0, 6, 6, 1", 1), *((f"{n} slice records", n) for n in (1, 3, 256, 257, 600))]:
        for slice_number, number in [(count - 1, 0), (count, 9)]:
            picture = Picture(8, 8, slices=[PLAIN_SLICE] * count)
            picture.cells[20:22] = slice_number.to_bytes(2, "little")
            yield Case(f"{name}, cell 2 of slice {slice_number}", picture, number, 2 if number else 0)
    picture = colour()
    picture.cells[8 * 5 + 2], picture.cells[8 * 4 + 6] = 3, 9
    yield Case("cells 4 and 5 are bad: the first counts", picture, 9, 4)


def samples():
    picture = small()
    picture.planes[0][5] = 256
    yield Case("depth 8, Y sample 5 is 256", picture, 10, 5)
    before = 0
    for plane, name in enumerate(["Y", "Cb", "Cr"]):
        length = len(colour().planes[plane])
        for sample in (0, length // 2 + 3, length - 1):
            for depth in (8, 11, 15):
                picture = colour(luma_depth=depth, chroma_depth=8 if plane == 0 else depth)
                picture.planes[plane][sample] = 2 ** depth
                yield Case(f"depth {depth}: {name} sample {sample} is {2 ** depth}", picture, 10, before + sample)
        before += length
    for luma, chroma, plane, sample, number in [(8, 16, 0, 256, 10), (8, 16, 1, 65535, 0), (16, 8, 0, 65535, 0),
                                                (16, 8, 2, 256, 10), (16, 16, 2, 65535, 0), (8, 8, 1, 65535, 10),
                                                (8, 8, 0, 255, 0), (15, 8, 0, 32767, 0), (15, 8, 0, 65535, 10)]:
        picture = colour(luma_depth=luma, chroma_depth=chroma)
        picture.planes[plane][7] = sample
        place = 7 + [0, 128, 160][plane] if number else 0
        yield Case(f"depths {luma} and {chroma}: sample 7 of plane {plane} is {sample}", picture, number, place)
    picture = colour()
    picture.planes[2][0], picture.planes[1][31], picture.planes[1][28] = 256, 256, 300
    yield Case("three large samples: the first counts", picture, 10, 128 + 28)
    picture = Picture(24, 16)
    picture.planes[0][40], picture.planes[0][33] = 256, 256
    yield Case("two large samples within 32: the first counts", picture, 10, 33)


# Each cause once, on 16 by 8, format 1, with two slice records.
FAULTS = {
    1: ("width", lambda p: setattr(p, "width", 12), 0),
    2: ("format", lambda p: setattr(p, "format", 4), 0),
    3: ("depth", lambda p: setattr(p, "luma_depth", 17), 0),
    4: ("log2 CTB", lambda p: setattr(p, "log2_ctb", 7), 0),
    5: ("offset", lambda p: setattr(p, "cr_offset", -13), 0),
    6: ("length", lambda p: p.planes[2].pop(), 0),
    7: ("slice", lambda p: with_item(p.slices, 5, 13), 1),
    8: ("tile start", lambda p: with_item(p.rows, 0, 1), 1),
    9: ("cell", lambda p: with_item(p.cells, 8 * 6, 0), 6),
    10: ("sample", lambda p: with_item(p.planes[1], 9, 256), 137),
}


def several_faults():
    for first in FAULTS:
        for second in range(first + 1, 11):
            picture = colour(slices=[(0, 6, 6, 1)] * 2)
            for number in (first, second):
                FAULTS[number][1](picture)
            yield Case(f"{FAULTS[first][0]} and {FAULTS[second][0]}", picture, first, FAULTS[first][2])
    for first in range(1, 11):
        picture = colour(slices=[(0, 6, 6, 1)] * 2)
        for number in range(first, 11):
            FAULTS[number][1](picture)
        yield Case(f"every cause from {first} on", picture, first, FAULTS[first][2])


# A picture of these that has no slice record passes 0, 6, 6, 1 outright (C-13); those that are to have none are `empty_lists`.
GROUPS = [figures, tile_figures, band_figures, formats_and_depths, sizes, tiles, slices, suppressed, quantizers,
          parting, strengths, largest_samples, at_random, settings, lengths, slice_records, tile_starts, cells, samples,
          several_faults, tc_ends, qpc_ends, averages, far_ends, example]


def palette_cells():
    yield from palette_pictures.with_turned(palette_pictures.marked(restored))
    yield from palette_pictures.with_turned(palette_pictures.steps())
    yield from palette_pictures.with_turned(palette_pictures.flags(colour))
    yield from palette_pictures.with_turned(palette_pictures.refusals(FAULTS, colour))


def empty_lists():
    yield from empty_list_pictures.thresholds()
    yield from empty_list_pictures.twins()
    yield from empty_list_pictures.refusals(FAULTS, colour)


def crossed():
    """16 by 16 with every edge set, and steps at column 8 and row 8."""
    return step_at(8, 8, width=16, height=16)


def edgeless(cases):
    """`cases`: those before, the converted ones among them."""
    yield from edgeless_pictures.combinations(crossed)
    yield from edgeless_pictures.marks(crossed)
    yield from edgeless_pictures.far()
    yield from edgeless_pictures.past_range(crossed)
    yield from edgeless_pictures.several(FAULTS, colour)
    yield from edgeless_pictures.unconverted_first(cases)


def check_bands(cases, found):
    """The cases of band_figures come in pairs that give the same planes."""
    pairs = [(case, planes) for case, (_, planes, _) in zip(cases, found) if "run at log2 CTB" in case.name]
    for (case, planes), (_, again) in zip(pairs[::2], pairs[1::2]):
        assert planes == again and planes != case.picture.planes, case.name


def main():
    checking = is_checking(__doc__)
    cases = [outright(case) for group in GROUPS for case in group()] + [*empty_lists(), *palette_cells()]
    cases = [converted(case) for case in cases]
    cases = [*cases, *edgeless(cases)]
    found, counts = expected([case.picture for case in cases] + [None])
    for case, (answer, planes, _) in zip(cases, found):
        assert answer == case.answer, (case.name, case.answer, answer)
        case.look_at(planes)
    check_bands(cases, found)
    turned = palette_pictures.check_turned(cases, found)
    accepted = [(case, planes) for case, (answer, planes, _) in zip(cases, found) if answer == (0, 0)]
    check_parting(accepted)
    changed = check_converted(accepted)
    short = cases[0].picture.pack()[:-1]
    lines = [text for _, _, text in found]
    names = [(f"{case.answer[0]} {case.answer[1]}", case.name) for case in cases] + [("short", "one byte is missing")]
    files = {"crates/picture_cases/stdin": b"".join(case.picture.pack() for case in cases) + short,
             "crates/picture_cases/stdout": "".join(lines).encode(),
             "oracle/pictures.txt": "".join(f"{number:3}  {answer:6}  {name}\n"
                                            for number, (answer, name) in enumerate(names, 1)).encode()}
    store(files, checking)
    size = len(files["crates/picture_cases/stdin"])
    print(f"{len(lines)} records of {size} bytes in all; {tally(lines)}; {counts}; turned: {turned};"
          f" converted: {changed}")


if __name__ == "__main__":
    main()
