"""Stored floats for the way back (document 02, C-22): those that samples give, what lies about them, and all that must be refused.

A group's name is given once; its floats come as (depth, chroma, bits).
"""

from fractions import Fraction
from itertools import product

import float_figures
from recogniser import middle, part, pattern
from records import Random

DEPTHS = range(8, 17)
KINDS = [(depth, chroma) for depth in DEPTHS for chroma in (0, 1)]
MINUS = 2 ** 31
INFINITY = 0x7F800000
LARGEST_FINITE = 0x7F7FFFFF
NANS = [0x7F800001, 0x7FA00000, 0x7FBFFFFF, 0x7FC00000, 0x7FC00001, 0x7FFFFFFF]
SUBNORMALS = [1, 2, 0x00400000, 0x007FFFFF]
LEAST_NORMALS = [0x00800000, 0x00800001]


def anchors(depth):
    """The first two samples, those about the middle, the last two."""
    half = 2 ** (depth - 1)
    return [0, 1, half - 1, half, half + 1, 2 * half - 2, 2 * half - 1]


def above(bits):
    """The next float up the line of numbers, of a finite one."""
    if bits in (0, MINUS):
        return 1
    return bits - 1 if bits >> 31 else bits + 1


def below(bits):
    return above(bits ^ MINUS) ^ MINUS


def signed(patterns):
    return [bits ^ sign for bits in patterns for sign in (0, MINUS)]


# ---- About the samples ----

def by_hand():
    """Those of float_figures.py, with the sample that must come back."""
    for depth in DEPTHS:
        for chroma, known in enumerate((float_figures.luma(depth), float_figures.chroma(depth))):
            yield from ((depth, chroma, bits, sample) for sample, bits in known)


def hand_floats():
    return (record[:3] for record in by_hand())


def sample_floats():
    for depth, chroma in KINDS:
        for sample in anchors(depth):
            bits = pattern(part(sample, depth, chroma))
            yield from ((depth, chroma, bits) for bits in (bits, above(bits), below(bits), bits ^ MINUS))


def between():
    """Halves, quarters and less between two samples."""
    for (depth, chroma), share in product(KINDS, (Fraction(1, 2), Fraction(1, 4), Fraction(127, 128))):
        for sample in anchors(depth)[0:1] + anchors(depth)[2:4] + anchors(depth)[5:6]:
            yield depth, chroma, pattern(part(sample + share, depth, chroma))


def past_the_ends():
    """A step past either end, half a step and less, several steps, and a step past by the other kind's range."""
    for depth, chroma in KINDS:
        steps = [Fraction(1, 128), Fraction(1, 2), 1, 2, 2 ** (depth - 1), 2 ** depth]
        places = [-step for step in steps] + [2 ** depth - 1 + step for step in steps]
        yield from ((depth, chroma, pattern(part(place, depth, chroma))) for place in places)


def wrapped():
    """A sample and a multiple of 2^depth, 2^16, 2^17 or 2^32 more or less, which a narrower number would take for the sample."""
    for (depth, chroma), power in product(KINDS, ("depth", 16, 17, 32)):
        more = 2 ** (depth if power == "depth" else power)
        for sample, sign in product((0, 2 ** (depth - 1), 2 ** depth - 1), (1, -1)):
            offset = sample - middle(depth, chroma) + sign * more
            # What a float cannot hold is rounded to a multiple of 2^9, of which it holds all these.
            yield depth, chroma, pattern(Fraction(offset if power != 32 else offset // 512 * 512, 2 ** depth))


def other_depths():
    """The floats of samples one depth up and one down, and the other kind's: some are floats of this depth and kind."""
    for depth, chroma in KINDS:
        for other in (depth - 1, depth + 1):
            yield from ((depth, chroma, pattern(part(sample, other, chroma))) for sample in anchors(other))
        yield from ((depth, chroma, pattern(part(sample, depth, 1 - chroma))) for sample in anchors(depth))


# ---- Floats of any depth ----

def special():
    """Zeros, ones, halves, infinities, NaNs, subnormals, the least normal numbers and the largest finite one, and small whole numbers."""
    whole = [pattern(Fraction(n)) for n in (1, 2, 127, 128, 255, 256, 32768, 65535, 65536)]
    halves = [pattern(Fraction(1, 2)), pattern(Fraction(1, 4)), above(pattern(Fraction(1, 2))), below(pattern(Fraction(1, 2)))]
    around_one = [above(pattern(Fraction(1))), below(pattern(Fraction(1)))]
    each = signed([0, INFINITY, LARGEST_FINITE, *NANS, *SUBNORMALS, *LEAST_NORMALS, *whole, *halves, *around_one])
    return ((depth, chroma, bits) for depth, chroma in KINDS for bits in each)


def magnitudes():
    """Floats that times 2^depth are 2^15 to 2^65 and just below and above, where a narrower number ends; and so below 0."""
    for (depth, chroma), power in product(KINDS, (15, 16, 23, 24, 31, 32, 62, 63, 64, 65)):
        bits = pattern(Fraction(2) ** (power - depth))
        yield from ((depth, chroma, bits) for bits in signed([bits, above(bits), below(bits)]))


def about_minus_one():
    """Floats that times 2^depth, chroma's middle added, are about -1 and about 0: truncated, those between would be 0."""
    for depth, chroma in KINDS:
        for place in (-1, 0):
            bits = pattern(part(place, depth, chroma))
            yield from ((depth, chroma, bits) for bits in (above(bits), below(bits), above(above(bits)), below(below(bits))))


# ---- Depths and kinds ----

def bad_depths():
    """Cause 3 comes before 15, whatever the float."""
    floats = [0, MINUS, pattern(Fraction(1, 2)), pattern(Fraction(-1, 2)), NANS[3], INFINITY, pattern(Fraction(1, 128))]
    numbers = (0, 1, 7, 17, 24, 31, 32, 33, 64, 255, 264, 65544, 2 ** 31 + 8, 2 ** 32 - 8, 2 ** 32 - 1)
    return product(numbers, (0, 1), floats)


def other_kinds():
    """Every number but 0 is chroma."""
    for depth, kind in product((8, 11, 16), (2, 3, 255, 256, 65536, 2 ** 31, 2 ** 32 - 1)):
        for sample in (0, 2 ** (depth - 1), 2 ** depth - 1):
            yield depth, kind, pattern(part(sample, depth, chroma=True))
        yield depth, kind, pattern(part(2 ** depth - 1, depth, chroma=False))


# ---- At random ----

def any_bits(random):
    return random.below(2 ** 16) << 16 | random.below(2 ** 16)


def any_float(random, depth, chroma):
    """Any pattern; or a sample's float, that with a few bits changed, or one between two samples or past an end."""
    if random.chance(30):
        return any_bits(random)
    bits = pattern(part(random.below(2 ** depth), depth, chroma))
    if random.chance(50):
        return bits
    if random.chance(40):
        return bits ^ random.pick(1, 2, MINUS, 1 << random.below(32), 1 << random.below(32), 1 << 23 + random.below(8))
    if random.chance(50):
        return random.pick(above, below)(bits)
    return pattern(part(Fraction(random.below(2 ** (depth + 2)), 2) - 2 ** (depth - 1), depth, chroma))


def any_record(random):
    depth, chroma = random.between(8, 16), random.below(2)
    bits = any_float(random, depth, chroma)
    if random.chance(3):
        depth = random.pick(0, 7, 17, 32, any_bits(random))
    if random.chance(3):
        chroma = any_bits(random)
    return depth, chroma, bits


def at_random():
    random = Random(224)
    return (any_record(random) for _ in range(1000))


GROUPS = [
    ("samples' floats, by hand", hand_floats),
    ("the first, middle and last samples' floats, each with the next floats up and down and its negative", sample_floats),
    ("between two samples", between),
    ("past the ends of the range", past_the_ends),
    ("a sample and a multiple of 2^depth, 2^16, 2^17, 2^32", wrapped),
    ("floats of other depths and of the other kind", other_depths),
    ("zeros, ones, halves, infinities, NaNs, subnormals and whole numbers", special),
    ("about 2^15 to 2^65 over 2^depth", magnitudes),
    ("about the first sample and the place before it", about_minus_one),
    ("depths outside 8 to 16", bad_depths),
    ("other numbers than 1 for chroma", other_kinds),
    ("at random", at_random),
]


def made():
    """Names and records."""
    return [(name, list(group())) for name, group in GROUPS]
