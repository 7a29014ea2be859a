"""Floats of samples, worked out by hand: document 02, C-22.

A float is a sign, eight bits of exponent + 127 and 23 bits after the leading 1. So 2^-depth has the exponent field 127 - depth and no
more: 119 or 0x77 at depth 8, and 0x77 << 23 is 3b800000. 1/2 is 3f000000, 1/4 3e800000 and 3/4, or 1.5 halves, 3f400000. The largest
luma sample gives 1 - 2^-depth, from 1/2 up: depth - 1 ones after the leading 1, at the top of the 23 bits. The largest chroma sample
gives 1/2 - 2^-depth, from 1/4 up: depth - 2 ones. Chroma is 0 at the middle; the samples 0 and 1 lie below it by as much as the middle
and the largest sample lie above 0 and it.
"""

# Depth: the floats of one step, of the largest luma sample and of the largest chroma sample.
BY_DEPTH = {
    8: (0x3B800000, 0x3F7F0000, 0x3EFE0000),
    9: (0x3B000000, 0x3F7F8000, 0x3EFF0000),
    10: (0x3A800000, 0x3F7FC000, 0x3EFF8000),
    11: (0x3A000000, 0x3F7FE000, 0x3EFFC000),
    12: (0x39800000, 0x3F7FF000, 0x3EFFE000),
    13: (0x39000000, 0x3F7FF800, 0x3EFFF000),
    14: (0x38800000, 0x3F7FFC00, 0x3EFFF800),
    15: (0x38000000, 0x3F7FFE00, 0x3EFFFC00),
    16: (0x37800000, 0x3F7FFF00, 0x3EFFFE00),
}

QUARTER, HALF, THREE_QUARTERS = 0x3E800000, 0x3F000000, 0x3F400000
MINUS = 2 ** 31


def luma(depth):
    """Samples and their floats."""
    step, last, _ = BY_DEPTH[depth]
    half = 2 ** (depth - 1)
    return [(0, 0), (1, step), (half, HALF), (2 * half - 1, last), (half // 2, QUARTER), (half + half // 2, THREE_QUARTERS)]


def chroma(depth):
    step, _, last = BY_DEPTH[depth]
    half = 2 ** (depth - 1)
    return [(0, MINUS | HALF), (1, MINUS | last), (half - 1, MINUS | step), (half // 2, MINUS | QUARTER),
            (half, 0), (half + 1, step), (2 * half - 1, last), (half + half // 2, QUARTER)]
