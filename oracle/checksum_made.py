"""Stored planes for their checksums (document 02, C-11): every depth, format and size, each refusal, and what is not looked at."""

from checksum_figures import Summed, figures
from checksum_records import bare, noise
from picture_records import LOSSLESS, PLAIN_SLICE, Picture
from records import Random

NAMES = ["Y", "Cb", "Cr"]
HUGE = 2 ** 32 - 1


# ---- Accepted ----

def depths():
    """Noise: luma at every depth beside chroma at 8, and chroma at every depth beside luma at 8; the depths mixed."""
    random = Random(81)
    apart = [(depth, 8) for depth in range(8, 17)] + [(8, depth) for depth in range(9, 17)]
    for luma, chroma in apart:
        for format in (1, 0) if chroma == 8 else (1,):
            yield Summed(f"noise, format {format}, depths {luma} and {chroma}", noise(random, 16, 8, format, luma, chroma))
    for format in range(4):
        for luma, chroma in [(9, 16), (16, 9), (10, 12)]:
            yield Summed(f"noise, format {format}, depths {luma} and {chroma}", noise(random, 8, 16, format, luma, chroma))


def parts():
    """At depth 16 the low bytes alone, or the high parts alone: the two join alike."""
    random = Random(82)
    low = noise(random, 16, 8, 3, 16, 16)
    low.planes = [[sample & 255 for sample in plane] for plane in low.planes]
    yield Summed("depth 16, low bytes alone", low)
    yield Summed("depth 16, the same as high parts", low.with_fields(planes=[[256 * s for s in plane] for plane in low.planes]))
    yield Summed("depth 8, the same low bytes", low.with_fields(luma_depth=8, chroma_depth=8))


def sizes():
    """Noise of many sizes, wide and high."""
    random = Random(83)
    small = [(8, 16), (16, 8), (24, 40), (40, 24), (136, 8), (8, 136)]
    large = [(256, 8), (8, 256), (264, 16), (16, 264), (520, 16), (16, 520)]
    for number, (width, height) in enumerate([*small, *large]):
        for format in range(4) if (width, height) in small else (number % 2, 2 + number % 2):
            luma, chroma = random.between(8, 16), random.between(8, 16)
            yield Summed(f"noise, {width} by {height}, format {format}, depths {luma} and {chroma}",
                         noise(random, width, height, format, luma, chroma))
    for width, height, format, luma, chroma in [(4104, 8, 3, 8, 10), (8, 4104, 2, 10, 8), (5000, 8, 0, 16, 8)]:
        yield Summed(f"noise, {width} by {height}, format {format}, depths {luma} and {chroma}",
                     noise(random, width, height, format, luma, chroma))


# ---- Refused ----

def colour(**fields):
    """16 by 8, 4:2:0: 128 samples of Y, 32 of Cb and of Cr."""
    return bare(100, 16, 8, 1, **fields)


def grey(**fields):
    return bare(100, 8, 8, 0, **fields)


def settings():
    for n in (0, 4, 7, 9, 12, 8200, HUGE):
        yield Summed(f"width {n}", colour().with_fields(width=n), answer=(1, 0))
        yield Summed(f"height {n}", colour().with_fields(height=n), answer=(1, 0))
    for name, fields in [("width 8", dict(width=8)), ("width 8192", dict(width=8192)), ("height 8192", dict(height=8192))]:
        yield Summed(f"{name} is allowed, but not with these planes", colour().with_fields(**fields), answer=(6, 0))
    for n in (4, 5, HUGE):
        yield Summed(f"format {n}", colour().with_fields(format=n), answer=(2, 0))
    for n in (0, 7, 17, 255, HUGE):
        for picture in (colour(), grey()):
            yield Summed(f"luma depth {n}, format {picture.format}", picture.with_fields(luma_depth=n), answer=(3, 0))
            yield Summed(f"chroma depth {n}, format {picture.format}", picture.with_fields(chroma_depth=n), answer=(3, 0))


def lengths():
    for format in range(4):
        whole = bare(100, 8, 8, format)
        for plane, name in enumerate(NAMES):
            length = len(whole.planes[plane])
            for n in (length - 1, length + 1) if length else (1, 2):
                planes = list(whole.planes)
                planes[plane] = [100] * n
                yield Summed(f"format {format}: {n} samples of {name}", whole.with_fields(planes=planes), answer=(6, 0))
    for format in (0, 2, 3):
        yield Summed(f"planes of format 1, format {format}", colour().with_fields(format=format), answer=(6, 0))
    y, cb, cr = colour().planes
    for name, planes in [("no samples at all", [[], [], []]), ("Cb and Cr of another length, as many together", [y, cb[1:], cr + [100]]),
                         ("Y and Cb exchanged", [cb, y, cr]), ("chroma, and no luma", [[], cb, cr])]:
        yield Summed(name, colour().with_fields(planes=planes), answer=(6, 0))
    yield Summed("width and height exchanged", colour().with_fields(width=8, height=16))


def with_sample(picture, plane, place, sample):
    planes = [list(own) for own in picture.planes]
    planes[plane][place] = sample
    return picture.with_fields(planes=planes)


def samples():
    """One above the largest in the first place of a plane, in the middle and in the last; and the largest in each."""
    before = 0
    for plane, name in enumerate(NAMES):
        length = len(colour().planes[plane])
        for depth in (8, 11, 15):
            picture = colour(luma_depth=8 if plane else depth, chroma_depth=depth if plane else 8)
            for place in (0, length // 2 + 3, length - 1):
                yield Summed(f"depth {depth}: {name} sample {place} is {2 ** depth}", with_sample(picture, plane, place, 2 ** depth),
                             answer=(10, before + place))
            yield Summed(f"depth {depth}: {name} sample {length - 1} is {2 ** depth - 1}",
                         with_sample(picture, plane, length - 1, 2 ** depth - 1))
        before += length


def own_depths():
    """A sample of 256 in luma and in chroma where the other's depth alone would allow it, and where its own does; 65535 at 16."""
    for luma, chroma, plane, sample, answer in [(8, 16, 0, 256, (10, 7)), (16, 8, 1, 256, (10, 135)), (16, 8, 2, 256, (10, 167)),
                                                (9, 8, 0, 256, (0, 0)), (8, 9, 1, 256, (0, 0)), (8, 9, 2, 256, (0, 0)),
                                                (16, 8, 0, 65535, (0, 0)), (8, 16, 2, 65535, (0, 0)), (8, 8, 0, 65535, (10, 7))]:
        yield Summed(f"depths {luma} and {chroma}: {NAMES[plane]} sample 7 is {sample}",
                     with_sample(colour(luma_depth=luma, chroma_depth=chroma), plane, 7, sample), answer=answer)
    picture = with_sample(with_sample(with_sample(colour(), 2, 0, 256), 1, 31, 256), 1, 28, 300)
    yield Summed("three large samples: the first counts", picture, answer=(10, 128 + 28))


# Each cause once, on 16 by 8, 4:2:0.
FAULTS = {
    1: ("height", lambda p: p.with_fields(height=12), 0),
    2: ("format", lambda p: p.with_fields(format=4), 0),
    3: ("depth", lambda p: p.with_fields(chroma_depth=17), 0),
    6: ("length", lambda p: p.with_fields(planes=[*p.planes[:2], p.planes[2][1:]]), 0),
    10: ("sample", lambda p: with_sample(p, 1, 9, 256), 137),
}


def several():
    """Two causes at once, and each with all after it: the first in the order 1, 2, 3, 6, 10 counts."""
    numbers = list(FAULTS)
    groups = [[a, b] for a in numbers for b in numbers if a < b] + [numbers[at:] for at in range(len(numbers))]
    for group in groups:
        picture = colour()
        for number in reversed(group):  # the sample while all planes are there
            picture = FAULTS[number][1](picture)
        first = group[0]
        yield Summed(" and ".join(FAULTS[number][0] for number in group), picture, answer=(first, FAULTS[first][2]))


# ---- Not looked at ----

def unseen():
    """What the stage would refuse, and what it would filter: none of it is looked at."""
    whole = Picture(16, 8, 1, slices=[PLAIN_SLICE] * 2)
    changed = [("log2 CTB 3", dict(log2_ctb=3)), ("log2 CTB 7", dict(log2_ctb=7)), ("log2 CTB 4294967295", dict(log2_ctb=HUGE)),
               ("Cb offset 13", dict(cb_offset=13)), ("Cr offset -13", dict(cr_offset=-13)), ("the PCM switch", dict(pcm_switch=1)),
               ("no output samples", dict(out_lengths=(0, 0, 0))), ("output planes one longer", dict(out_lengths=(129, 33, 33))),
               ("a cell byte less", dict(cells=whole.cells[1:])), ("no cells", dict(cells=b"")),
               ("cells of 255", dict(cells=b"\xff" * 64)), ("lossless cells", dict(cells=bytes([101, LOSSLESS, 0, 0, 0, 0, 0, 0] * 8))),
               ("a slice byte too many", dict(slices=whole.slices + b"\0")), ("no slices", dict(slices=b"")),
               ("slices of 255", dict(slices=b"\xff" * 8)), ("no tile starts", dict(columns=[], rows=[])),
               ("tile starts that fall", dict(columns=[9, 3, 0], rows=[65535])), ("40 tile columns", dict(columns=list(range(40))))]
    yield Summed("nothing wrong", whole)
    for name, fields in changed:
        yield Summed(f"{name}: not looked at", whole.with_fields(**fields))
    everything = {name: value for _, fields in changed for name, value in fields.items()}
    yield Summed("all of these at once: not looked at", whole.with_fields(**everything))
    yield Summed("all of these at once, and a sample of 256", with_sample(whole.with_fields(**everything), 2, 5, 256), answer=(10, 165))


GROUPS = [figures, depths, parts, sizes, settings, lengths, samples, own_depths, several, unseen]


def made():
    return [case for group in GROUPS for case in group()]
