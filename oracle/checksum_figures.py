"""Stored planes whose checksums are worked out by hand: document 02, C-11.

Where column and row are below 256 a sample's mask is column xor row. Xor with a number below 2^k changes the order of the numbers
from a multiple of 2^k up to the next, and no more. So a plane of zeros has in row y below 8, of columns 0 to 7, the numbers 0 to 7
in some order: 28. Of 0 to 3 they sum to 6, of 4 to 7 to 22, of 0 to 15 to 120, of 16 to 23 to 156, of 0 to 255 to 32,640.
Columns 256 to 263 have the numbers 0 to 7 again, in another order, since 256 >> 8 is 1; columns 512 to 519 too, and in rows 8 to 15 the
numbers 8 to 15, which sum to 92; columns 4096 to 4103 have 16 to 23, since 4096 >> 8 is 16. Rows and columns can be exchanged.

Above depth 8 a zero joins twice, with the same mask. The largest sample of depth 8 is 255, and 255 xor mask is 255 - mask. A single
sample set in a plane of zeros changes the sum by (low byte xor mask) - mask, and so does its high part above depth 8.
"""

from checksum_records import bare

# Width, height and format, depths, and the sums of planes of zeros.
ZEROS = [
    (8, 8, 1, 8, 8, [8 * 28, 4 * 6, 4 * 6]),  # document 02's: 000000e0, 00000018, 00000018
    (8, 8, 0, 8, 8, [8 * 28]),
    (8, 8, 2, 8, 8, [8 * 28, 4 * 6 + 4 * 22, 4 * 6 + 4 * 22]),  # chroma 4 by 8
    (8, 8, 3, 8, 8, [8 * 28] * 3),
    (8, 8, 1, 9, 8, [2 * 8 * 28, 4 * 6, 4 * 6]),
    (8, 8, 1, 8, 9, [8 * 28, 2 * 4 * 6, 2 * 4 * 6]),
    (8, 8, 3, 16, 16, [2 * 8 * 28] * 3),
    (8, 8, 0, 8, 16, [8 * 28]),
    (8, 8, 0, 16, 8, [2 * 8 * 28]),
    (16, 8, 1, 8, 8, [8 * 120, 4 * 28, 4 * 28]),  # chroma 8 by 4
    (8, 16, 1, 8, 8, [8 * 120, 4 * 28, 4 * 28]),  # 4 by 8: 4 * 28 by columns, and by rows 4 * 6 + 4 * 22
    (16, 8, 2, 8, 8, [8 * 120, 8 * 28, 8 * 28]),
    (24, 8, 0, 8, 8, [8 * (120 + 156)]),
    (8, 24, 3, 8, 10, [8 * (120 + 156), 2 * 8 * (120 + 156), 2 * 8 * (120 + 156)]),
    (256, 8, 0, 8, 8, [8 * 32640]),
    (264, 8, 0, 8, 8, [8 * (32640 + 28)]),
    (8, 264, 0, 8, 8, [8 * (32640 + 28)]),
    # Chroma 260 by 8: in columns 256 to 259 the numbers 0 to 3 in rows 0 to 3, and 4 to 7 in rows 4 to 7.
    (520, 16, 1, 8, 8, [16 * 2 * 32640 + 8 * 28 + 8 * 92, *[8 * 32640 + 4 * 6 + 4 * 22] * 2]),
    (16, 520, 1, 8, 8, [16 * 2 * 32640 + 8 * 28 + 8 * 92, *[8 * 32640 + 4 * 6 + 4 * 22] * 2]),
    (4104, 8, 0, 8, 8, [8 * (16 * 32640 + 156)]),
    (8, 4104, 0, 8, 8, [8 * (16 * 32640 + 156)]),
]

# 8 by 8 at the largest sample of a depth: the low bytes sum to 64 * 255 - 224. High parts of 1, 3 and 7 leave the numbers 0 to 7 in
# another order, 224; of h from 7 on they sum to 64 * h - 224.
LARGEST = {8: 16096, 9: 16096 + 224, 10: 16096 + 224, 11: 16096 + 224, 12: 16096 + 64 * 15 - 224, 13: 16096 + 64 * 31 - 224,
           14: 16096 + 64 * 63 - 224, 15: 16096 + 64 * 127 - 224, 16: 16096 + 64 * 255 - 224}

# Width and height, the sum of zeros, depth; column, row, sample; its mask, and what the sample adds.
SINGLES = [
    (8, 8, 224, 8, 0, 0, 255, 0, 255 - 0),
    (8, 8, 224, 8, 7, 0, 255, 7, 248 - 7),
    (8, 8, 224, 8, 5, 3, 6, 6, 0 - 6),
    (8, 8, 224, 8, 7, 7, 128, 0, 128 - 0),
    (8, 8, 448, 9, 0, 0, 256, 0, (0 - 0) + (1 - 0)),
    (8, 8, 448, 9, 1, 0, 256, 1, (1 - 1) + (0 - 1)),
    (8, 8, 448, 9, 1, 0, 1, 1, (0 - 1) + (1 - 1)),
    (8, 8, 448, 16, 3, 5, 0x1234, 6, (0x32 - 6) + (0x14 - 6)),
    (8, 8, 448, 16, 2, 7, 0xFF00, 5, (5 - 5) + (250 - 5)),
    (8, 8, 448, 16, 2, 7, 0x00FF, 5, (250 - 5) + (5 - 5)),
    (264, 8, 261344, 8, 255, 0, 255, 255, 0 - 255),
    (264, 8, 261344, 8, 256, 0, 255, 1, 254 - 1),
    (264, 8, 261344, 8, 257, 0, 255, 0, 255 - 0),
    (264, 8, 261344, 8, 263, 5, 9, 3, 10 - 3),
    (8, 264, 261344, 8, 0, 255, 255, 255, 0 - 255),
    (8, 264, 261344, 8, 0, 256, 255, 1, 254 - 1),
    (8, 264, 261344, 8, 0, 257, 255, 0, 255 - 0),
    (8, 264, 261344, 8, 5, 263, 9, 3, 10 - 3),
    (4104, 8, 4179168, 8, 4095, 0, 255, 240, 15 - 240),
    (4104, 8, 4179168, 8, 4096, 0, 255, 16, 239 - 16),
    (4104, 8, 4179168, 8, 4103, 5, 255, 18, 237 - 18),
    (8, 4104, 4179168, 8, 0, 4095, 255, 240, 15 - 240),
    (8, 4104, 4179168, 8, 0, 4096, 255, 16, 239 - 16),
    (8, 4104, 4179168, 8, 5, 4103, 255, 18, 237 - 18),
]


class Summed:
    """Planes with a name, their answer, and their sums where they were worked out by hand."""

    def __init__(self, name, picture, sums=None, answer=(0, 0)):
        self.name, self.picture, self.sums, self.answer = name, picture, sums, answer


def zeros():
    for width, height, format, luma, chroma, sums in ZEROS:
        yield Summed(f"zeros, {width} by {height}, format {format}, depths {luma} and {chroma}",
                     bare(0, width, height, format, luma, chroma), sums)


def largest():
    """Luma and chroma each at every depth beside the other at depth 8."""
    pairs = [(depth, 8) for depth in LARGEST] + [(8, depth) for depth in LARGEST if depth > 8]
    for luma, chroma in pairs:
        picture = bare(0, 8, 8, 3, luma, chroma)
        picture.planes = [[2 ** depth - 1] * 64 for depth in (luma, chroma, chroma)]
        yield Summed(f"the largest samples, depths {luma} and {chroma}", picture, [LARGEST[luma], LARGEST[chroma], LARGEST[chroma]])


def singles():
    for width, height, empty, depth, x, y, sample, mask, more in SINGLES:
        picture = bare(0, width, height, 0, depth)
        picture.planes[0][y * width + x] = sample
        yield Summed(f"{width} by {height}, depth {depth}: sample ({x}, {y}), of mask {mask}, is {sample}", picture, [empty + more])


def chroma_singles():
    """A sample of each plane of 8 by 8, 4:2:0 and 4:2:2: (3, 2) has mask 1 and (2, 6) mask 4."""
    picture = bare(0, 8, 8, 1)
    picture.planes[0][8 * 6 + 2], picture.planes[1][4 * 2 + 3], picture.planes[2][4 * 2 + 3] = 4, 200, 101
    yield Summed("format 1: Y (2, 6) is 4, Cb (3, 2) is 200, Cr (3, 2) is 101", picture, [224 - 4, 24 + 200, 24 + 99])
    picture = bare(0, 8, 8, 2)
    picture.planes[1][4 * 6 + 2], picture.planes[2][4 * 2 + 3] = 255, 1
    yield Summed("format 2: Cb (2, 6) is 255, Cr (3, 2) is 1", picture, [224, 112 + 251 - 4, 112 - 1])


def figures():
    yield from zeros()
    yield from largest()
    yield from singles()
    yield from chroma_singles()
