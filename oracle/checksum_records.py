"""Planes for their checksums (document 02, C-11), as records, and the lines that a program prints of them; PROGRAM beside
checksum.py.

A line has the record's number from 1, the verdict's number and place, and of accepted planes the sums in eight hexadecimal
digits, one in format 0 and three else. A truncated record has the line `short`.
"""

from collections import Counter

from checksum import checksums, verdict
from picture_records import Picture, damage
from records import Random
from stored import differs

BATCH = 2000  # records that PROGRAM is given at once


def bare(sample, *settings, **fields):
    """Flat planes and no other list: none but the planes are looked at."""
    picture = Picture(*settings, **fields)
    planes = [[sample] * len(plane) for plane in picture.planes]
    return picture.with_fields(planes=planes, cells=b"", slices=b"", columns=[], rows=[], out_lengths=(0, 0, 0))


def noise(random, *settings, **fields):
    """Any samples of their depth."""
    picture = bare(0, *settings, **fields)
    depths = (picture.luma_depth, picture.chroma_depth, picture.chroma_depth)
    picture.planes = [[random.below(2 ** depth) for _ in plane] for plane, depth in zip(picture.planes, depths)]
    return picture


def line(number, answer, sums):
    return " ".join([str(number), *map(str, answer), *(f"{value:08x}" for value in sums)]) + "\n"


def expected(picture):
    """The answer and the sums of a picture's planes as they are given."""
    answer = verdict(picture)
    return answer, checksums(picture, picture.planes) if answer == (0, 0) else []


# ---- PROGRAM beside checksum.py ----

def any_planes(random):
    """Three in ten are damaged, in any field of a picture, so that not all of these are refused."""
    sizes = random.pick((5, 5), (5, 5), (5, 5), (5, 5), (5, 5), (40, 1), (1, 40), (70, 2))
    width, height = (8 * random.between(1, most) for most in sizes)
    picture = noise(random, width, height, random.below(4), random.between(8, 16), random.between(8, 16))
    if random.chance(30):
        part = random.pick(0x00FF, 0xFF00, 0x0101)  # low bytes alone, high parts alone, and a bit of each
        picture.planes = [[sample & part for sample in plane] for plane in picture.planes]
    if random.chance(30):
        damage(random, picture)
    return picture


def beside(program, count, seed):
    """1 where PROGRAM prints other lines of random planes than are expected, else 0."""
    random, answers, samples = Random(seed), Counter(), 0
    for start in range(0, count, BATCH):
        pictures = [any_planes(random) for _ in range(min(BATCH, count - start))]
        found = list(map(expected, pictures))
        lines = [line(number, *parts) for number, parts in enumerate(found, 1)]
        if differs(program, b"".join(picture.pack() for picture in pictures), lines, start):
            return 1
        answers.update(number for (number, _), _ in found)
        samples += sum(len(plane) for picture in pictures for plane in picture.planes)
    refused = ", ".join(f"refused {number}: {answers[number]}" for number in sorted(answers) if number)
    print(f"{count} pictures of {samples} samples; accepted: {answers[0]}, {refused}\nno difference")
    return 0
