"""The picture checksum of H.265, Annex D (decoded picture hash), in Python, and the checks before it: document 02, C-11.

Written from Annex D and document 02 alone; it shares nothing with the stage. The sum is exact, over all samples of a plane, and
taken modulo 2^32 once, at its end.
"""

from ledger import DEPTHS, FORMAT, PLANE_LENGTHS, SAMPLES, SIZES, first_cause


def mask(x, y):
    return (x & 0xFF) ^ (y & 0xFF) ^ (x >> 8) ^ (y >> 8)


def exact_sum(samples, width, depth):
    total = 0
    for place, sample in enumerate(samples):
        xor_mask = mask(place % width, place // width)
        total += (sample & 0xFF) ^ xor_mask
        if depth > 8:
            total += (sample >> 8) ^ xor_mask
    return total


def plane_checksum(samples, width, depth):
    return exact_sum(samples, width, depth) % 2 ** 32


def checksums(picture, planes):
    """A sum for each plane that an accepted picture's format has; a plane's own depth decides."""
    depths = [picture.luma_depth, picture.chroma_depth, picture.chroma_depth]
    return [plane_checksum(planes[plane], picture.plane_width(plane), depths[plane]) for plane in range(3 if picture.format else 1)]


def verdict(picture):
    """Number and place of the checks of the given planes; (0, 0) where there are sums."""
    return first_cause(picture, [SIZES, FORMAT, DEPTHS, PLANE_LENGTHS, SAMPLES])
