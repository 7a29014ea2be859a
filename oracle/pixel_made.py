"""Stored pixels of planes (document 02, C-22): figures by hand, every position, depth and format, the borders, and each refusal of
C-11's stored planes with a pixel inside and outside."""

import checksum_made
import float_figures
from checksum_records import bare, noise
from records import Random

HUGE = 2 ** 32 - 1


class Asked:
    """A pixel of planes with a name, the answer, and the floats where they were worked out by hand."""

    def __init__(self, name, picture, pixel, answer=(0, 0), floats=None):
        self.name, self.picture, self.pixel, self.answer, self.floats = f"{name}; pixel {pixel}", picture, pixel, answer, floats


# ---- Inside ----

def with_pixel(picture, pixel, samples):
    """The picture, of format 3, with these samples at the pixel."""
    place = pixel[1] * picture.width + pixel[0]
    for plane, sample in zip(picture.planes, samples):
        plane[place] = sample
    return picture


def figures():
    """Each depth of luma beside another of chroma, its least and largest samples and those next to the middle."""
    for depth, chroma_depth in zip(range(8, 17), range(16, 7, -1)):
        chroma = float_figures.chroma(chroma_depth)
        for number, known in enumerate(zip(float_figures.luma(depth), chroma, chroma[4:])):
            samples, floats = zip(*known)
            pixel = (3 + number, 6 - number)
            picture = with_pixel(bare(100, 8, 8, 3, depth, chroma_depth), pixel, samples)
            name = "samples {}, {} and {}".format(*samples)
            yield Asked(f"{name} at depths {depth} and {chroma_depth}", picture, pixel, floats=list(floats))


def document_figures():
    """More floats by hand: halves, quarters and sums of few powers of 2, in every format."""
    for format, depths, samples, floats in [
            (0, (8, 16), [128], [0x3F000000]), (0, (16, 8), [3], [0x38400000]), (1, (8, 8), [128, 64, 128], [0x3F000000, 0xBE800000, 0]),
            (2, (10, 9), [1023, 511, 257], [0x3F7FC000, 0x3EFF0000, 0x3B000000]), (3, (16, 16), [32768, 32767, 32769],
                                                                                   [0x3F000000, 0xB7800000, 0x37800000]),
            (1, (16, 8), [5, 0, 255], [0x38A00000, 0xBF000000, 0x3EFE0000]), (2, (9, 12), [384, 2048, 3072], [0x3F400000, 0, 0x3E800000]),
            (3, (12, 15), [2049, 16383, 0], [0x3F001000, 0xB8000000, 0xBF000000])]:
        picture = bare(0, 8, 16, format, *depths)
        picture.planes = [[sample] * len(plane) for plane, sample in zip(picture.planes, [*samples, 0, 0])]
        yield Asked(f"flat, format {format}, samples {samples}, depths {depths[0]} and {depths[1]}", picture, (5, 11), floats=floats)


def distinct(picture):
    """Samples that are all different, in all planes together."""
    places = iter(range(192))
    depths = (picture.luma_depth, picture.chroma_depth, picture.chroma_depth)
    planes = [[(next(places) * 0x9E37 + 11) % 2 ** depth for _ in plane] for plane, depth in zip(picture.planes, depths)]
    assert len({sample for plane in planes for sample in plane}) == sum(map(len, planes))
    return picture.with_fields(planes=planes)


def positions():
    """All pixels of 8 by 8 in each format."""
    for format, depths in enumerate([(8, 12), (8, 8), (13, 13), (16, 16)]):
        picture = distinct(bare(0, 8, 8, format, *depths))
        for place in range(64):
            yield Asked(f"all samples different, format {format}", picture, (place % 8, place // 8))


def any_pixel(random, picture):
    return random.below(picture.width), random.below(picture.height)


def depths():
    """Noise at each depth of luma beside three of chroma, and so the other way."""
    random = Random(221)
    for luma in range(8, 17):
        for more in (1, 4, 7):
            chroma = 8 + (luma - 8 + more) % 9
            picture = noise(random, 8, 8, 1 + luma % 3, luma, chroma)
            yield Asked(f"noise, format {picture.format}, depths {luma} and {chroma}", picture, any_pixel(random, picture))


def sizes():
    """Noise of many sizes: the last pixel and any other."""
    random = Random(222)
    for width, height in [(16, 8), (8, 16), (24, 16), (16, 24), (40, 8), (8, 40), (136, 8), (8, 136)]:
        for format in range(4):
            picture = noise(random, width, height, format, random.between(8, 16), random.between(8, 16))
            name = f"noise, {width} by {height}, format {format}, depths {picture.luma_depth} and {picture.chroma_depth}"
            yield Asked(name, picture, random.pick((width - 1, height - 1), (width - 1, 0), (0, height - 1)))
            yield Asked(name, picture, any_pixel(random, picture))
    for width, height, format in [(264, 16, 1), (16, 264, 2), (2056, 8, 0), (8, 2056, 0)]:
        picture = noise(random, width, height, format, 16, 9)
        yield Asked(f"noise, {width} by {height}, format {format}, depths 16 and 9", picture, (width - 1, height - 1))


# ---- Outside ----

def outside():
    """One past each border and both, far past, and by what a narrower number, or column and row exchanged, would be inside."""
    random = Random(223)
    for format, (width, height) in enumerate([(16, 8), (8, 16), (24, 16), (16, 24)]):
        picture = noise(random, width, height, format, 9, 10)
        name = f"{width} by {height}, format {format}"
        last = width - 1, height - 1
        yield Asked(f"{name}, the last pixel", picture, last)
        for pixel in [(width, 0), (0, height), (width, height), (width, last[1]), (last[0], height), (HUGE, 0), (0, HUGE), (HUGE, HUGE),
                      (width + 1, 3), (3, height + 1), (65536, 0), (1, 65536), (2 ** 31, 1), (last[1], last[0])]:
            yield Asked(f"{name}, outside", picture, pixel, (14, 0))


# ---- The checks before ----

INSIDE, OUTSIDE = (5, 3), (HUGE, 16)


def both(case):
    """Refused planes with a pixel inside and one outside; of others the one is answered and the other not."""
    yield Asked(case.name, case.picture, INSIDE, case.answer)
    yield Asked(case.name, case.picture, OUTSIDE, (14, 0) if case.answer == (0, 0) else case.answer)


def checked():
    """C-11's planes for the causes 1, 2, 3, 6 and 10: each at its ends inside or outside by turns, every two of them both ways."""
    groups = [checksum_made.settings, checksum_made.lengths, checksum_made.samples, checksum_made.own_depths]
    for number, case in enumerate(case for group in groups for case in group()):
        yield list(both(case))[(number + number // 2) % 2]
    for case in checksum_made.several():
        yield from both(case)


def unseen():
    """What the stage would refuse: none of it is looked at."""
    for number, case in enumerate(checksum_made.unseen()):
        yield list(both(case))[number % 5 == 4]


GROUPS = [figures, document_figures, positions, depths, sizes, outside, checked, unseen]


def made():
    return [case for group in GROUPS for case in group()]
