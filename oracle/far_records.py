"""How far the samples of pictures go (document 02, C-23): the lines that a program prints of it, and PROGRAM held to them.

A line has the record's number from 1 and the verdict's number and place; of an accepted picture then for Y, Cb and Cr the
farthest distance of a sample from its original, and the place of the first sample that goes so far, counted row by row through
the plane: 0 and 0 where nothing moves. A truncated record has the line `short`. The distances are worked out here, of the planes
that the oracle leaves, or the second program where it decides."""

from ledger import SCALES, verdict
from picture_case import edges
from picture_records import LOSSLESS, PALETTE, PCM, Picture, damage, decided, random_picture
from records import Random
from stored import differs

BOUNDS = (96, 48, 48)  # of Y, Cb and Cr at depth 8
TOP_SLICE = (0, 12, 12, 1)  # both offsets at the top
BATCH = 2000  # records that PROGRAM is given at once


def farthest(before, after):
    """The largest distance, and the place of the first sample that goes so far."""
    distances = [abs(a - b) for a, b in zip(before, after)]
    most = max(distances, default=0)
    return most, distances.index(most) if most else 0


def depth_of(picture, plane):
    return picture.chroma_depth if plane else picture.luma_depth


def bound(picture, plane):
    return BOUNDS[plane] << (depth_of(picture, plane) - 8)


def gone(picture, planes):
    """How far the samples of an accepted picture go, plane by plane. Stops where that is too far, or out of range."""
    far = [farthest(*pair) for pair in zip(picture.planes, planes)]
    for plane, (distance, place) in enumerate(far):
        assert distance <= bound(picture, plane), (plane, distance, place)
        assert max(planes[plane], default=0) < 2 ** depth_of(picture, plane), plane
    return far


def expected(pictures):
    """For each picture (None for a short record) its answer, how far its samples go, its output planes, and its line."""
    answers = [picture and verdict(picture) for picture in pictures]
    filtered = iter(decided([picture for picture, answer in zip(pictures, answers) if answer == (0, 0)])[0])
    found = []
    for number, (picture, answer) in enumerate(zip(pictures, answers), 1):
        planes = next(filtered) if answer == (0, 0) else None
        far = gone(picture, planes) if planes else []
        numbers = [number, *(answer or ()), *(number for pair in far for number in pair)]
        found.append((answer, far, planes, " ".join(map(str, numbers)) + "\n" if picture else "short\n"))
    return found


# ---- PROGRAM beside the oracle ----

def beside(program, count, seed):
    """1 where PROGRAM prints other lines of random pictures than are expected, else 0."""
    random = Random(seed)
    accepted, met, shares = 0, [0, 0, 0], [0, 0, 0]
    for start in range(0, count, BATCH):
        pictures = [any_picture(random) for _ in range(min(BATCH, count - start))]
        found = expected(pictures)
        if differs(program, b"".join(picture.pack() for picture in pictures), [line for *_, line in found], start):
            return 1
        for picture, (answer, far, *_) in zip(pictures, found):
            accepted += answer == (0, 0)
            for plane, (distance, _) in enumerate(far):
                met[plane] += distance == bound(picture, plane)
                shares[plane] = max(shares[plane], distance / bound(picture, plane))
    says = ", ".join(f"{name} {part:.1%}, met in {times}" for name, part, times in zip(("Y", "Cb", "Cr"), shares, met))
    print(f"{count} pictures, {accepted} accepted; largest shares of the bounds: {says}\nno difference")
    return 0


# ---- Random pictures ----

def aim(random, picture, x, y):
    """Sets samples of luma around a crossing of two edges, so that one of them goes far: as far as it may for the most part."""
    plane, width, largest = picture.planes[0], picture.width, 2 ** picture.luma_depth - 1
    level = plane[0]
    end = 0 if 2 * level > largest else largest
    row = width * random.pick(y - 3, y - 2, y + 1, y + 2)
    right = random.chance(50)

    def at(number):
        """Of the samples of the row: 0, 1 and 2 from the edge on, -1 and -2 beyond it."""
        return row + (x + number if right else x - 1 - number)
    aimed, other = random.pick((1, 2), (2, 1))
    plane[at(aimed)] = end
    for number in (0, -1, -2):
        plane[at(number)] = random.pick(level, level, largest - end, largest - end, random.between(0, largest))
    # The first pass leaves about the level next to the edge, so that the second pass finds a flat line there.
    weights = {0: 2, 1: 2, 2: 1, -1: 2, -2: 1}
    rest = sum(weight * plane[at(number)] for number, weight in weights.items() if number != other)
    plane[at(other)] = min(max((8 * level - rest) // weights[other], 0), largest)


def adversarial(random):
    """Flat but around the crossings of edges, with the thresholds at their largest in most pictures."""
    format = random.below(4)
    across, down = SCALES.get(format, (1, 1))
    depths = [random.between(8, 16) for _ in range(2)]
    picture = edges(Picture(16 * across, 16 * down + 8 * random.below(2), format, *depths, log2_ctb=random.between(4, 6),
                            pcm_switch=random.below(2), qp=random.pick(51, 51, 51, 50, 39),
                            slices=[random.pick(TOP_SLICE, TOP_SLICE, TOP_SLICE, (0, 12, 6, 1))]))
    for plane in range(3 if format else 1):
        width, height, depth = picture.plane_width(plane), picture.plane_height(plane), depth_of(picture, plane)
        level = random.between(20, 235) << (depth - 8)
        picture.planes[plane] = [level] * (width * height)
        for y, x in [(y, x) for y in range(8, height, 8) for x in range(8, width, 8) if random.chance(70)]:
            if plane == 0:
                aim(random, picture, x, y)
            else:
                place = (y - random.below(2)) * width + x - random.below(2)
                picture.planes[plane][place] = random.pick(0, 2 ** depth - 1, random.between(0, 2 ** depth - 1))
    if random.chance(20):
        mark = random.pick(LOSSLESS, PCM, PALETTE)
        picture.set_cells(lambda record, x, y: record.__setitem__(1, record[1] | (mark if random.chance(10) else 0)))
    return picture


def any_picture(random):
    """Adversarial in two cases of three; some others are refused."""
    picture = adversarial(random) if random.chance(67) else random_picture(random, 32, 24)
    if random.chance(50):
        picture = picture.converted()
    if random.chance(10):
        damage(random, picture)
    return picture
