"""Document 02's C-22 in Python: the parts of a pixel as 32-bit floats, the way back, and the checks before either.

Written from document 02 alone; it shares nothing with the stage. A float is its bit pattern (IEEE 754, binary32) throughout. Numbers are
exact fractions, and no pattern is made or read by floating-point arithmetic.
"""

from fractions import Fraction

from ledger import DEPTHS, FORMAT, PLANE_LENGTHS, SAMPLES, SCALES, SIZES, first_cause

NEGATIVE_ZERO = 2 ** 31


# ---- Floats ----

def pattern(fraction):
    """The float that is exactly this fraction, of a denominator 2^k; 0 is +0.0."""
    if fraction == 0:
        return 0
    size = abs(fraction)
    exponent = size.numerator.bit_length() - size.denominator.bit_length()
    mantissa = (size / Fraction(2) ** exponent - 1) * 2 ** 23
    assert mantissa.denominator == 1 and 0 <= mantissa < 2 ** 23 and -126 <= exponent <= 127, fraction
    return (fraction < 0) << 31 | exponent + 127 << 23 | int(mantissa)


def value(bits):
    """The fraction that a float is; None for a NaN and for the infinities."""
    exponent, mantissa = bits >> 23 & 255, bits & 2 ** 23 - 1
    if exponent == 255:
        return None
    size = Fraction((2 ** 23 + mantissa) << exponent, 2 ** 150) if exponent else Fraction(mantissa, 2 ** 149)
    return -size if bits >> 31 else size


# ---- A sample's part, and the way back ----

def middle(depth, chroma):
    return 2 ** (depth - 1) if chroma else 0


def part(sample, depth, chroma):
    return Fraction(sample - middle(depth, chroma), 2 ** depth)


def sample_of(bits, depth, chroma):
    """The sample whose part a float is, or None."""
    fraction = value(bits)
    if fraction is None or bits == NEGATIVE_ZERO:
        return None
    sample = fraction * 2 ** depth + middle(depth, chroma)
    return int(sample) if sample.denominator == 1 and 0 <= sample < 2 ** depth else None


def recovered(depth, chroma, bits):
    """Number and place, and the sample or None."""
    if not 8 <= depth <= 16:
        return (3, 0), None
    sample = sample_of(bits, depth, chroma)
    return ((15, 0), None) if sample is None else ((0, 0), sample)


# ---- A pixel ----

def verdict(picture, x, y):
    """Number and place: C-11's checks, and 14 for a pixel outside."""
    outside = 14, lambda picture: None if x < picture.width and y < picture.height else 0
    return first_cause(picture, [SIZES, FORMAT, DEPTHS, PLANE_LENGTHS, SAMPLES, outside])


def parts(picture, x, y):
    """The floats of a pixel inside an accepted picture: luma, and Cb and Cr where there are any."""
    found = [pattern(part(picture.planes[0][y * picture.width + x], picture.luma_depth, chroma=False))]
    if picture.format:
        across, down = SCALES[picture.format]
        place = y // down * (picture.width // across) + x // across
        found += [pattern(part(plane[place], picture.chroma_depth, chroma=True)) for plane in picture.planes[1:]]
    return found
