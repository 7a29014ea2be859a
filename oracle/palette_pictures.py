"""Stored pictures with palette cells, flag bit 4, which keep their samples in luma and chroma at either setting of the PCM
switch: document 02, C-19. The second program decides on them, and the Rust with lossless cells in their place agrees."""

from itertools import product

from picture_case import Case, edges, marked_picture, same_as
from picture_records import LOSSLESS, PALETTE, PCM, Picture
from records import Random

SWITCHES = (0, 1)


def with_turned(cases):
    """The cases, and after each with a palette cell the same turned: it is answered alike and filtered alike."""
    for case in cases:
        yield case
        if case.picture.has_palette():
            yield Case(f"{case.name}; turned", case.picture.turned(), *case.answer, check=case.check)


def marked(restored):
    """Every format at either setting of the switch, palette cells among lossless and PCM ones."""
    random = Random(51)
    marks = 0, 0, 0, LOSSLESS, PCM, PALETTE, PALETTE, PALETTE | PCM, PALETTE | LOSSLESS
    for format, switch in product(range(4), SWITCHES):
        picture = marked_picture(random, format, switch, *marks)
        name = f"C-19: palette, lossless and PCM cells, switch {switch}, format {format}"
        yield Case(name, picture, check=restored(picture))


def step(format, switch, vertical, palette):
    """A step of 100 to 104 in luma and of 50 to 60 in chroma, as in S1 and K1, at sample 16 of luma. `palette` says for either
    side of it whether the cells there are palette cells."""
    width, height = (32, 8) if vertical else (8, 32)
    picture = edges(Picture(width, height, format=format, pcm_switch=switch))
    for plane in range(3 if format else 1):
        low, high = (50, 60) if plane else (100, 104)
        half = (picture.plane_width(plane) if vertical else picture.plane_height(plane)) // 2
        picture.fill(plane, lambda x, y: low if (x if vertical else y) < half else high)

    def change(record, x, y):
        record[1] |= PALETTE if palette[(x if vertical else y) >= 4] else 0
    picture.set_cells(change)
    return picture


def crossed(picture, plane, vertical, line, start):
    """The plane with a line's samples, across the step, in the place of its own from `start` on."""
    width = picture.plane_width(plane)
    samples = list(picture.planes[plane])
    for number in range(len(samples)):
        at = (number % width if vertical else number // width) - start
        if 0 <= at < len(line):
            samples[number] = line[at]
    return samples


def beside(p_stays, q_stays, line, low, high):
    """A filtered line whose palette side has its original samples."""
    half = len(line) // 2
    return (half * [low] if p_stays else line[:half]) + (half * [high] if q_stays else line[half:])


def steps():
    """S1 and K1 across an edge with palette cells on P's side, on Q's and on both: the other side moves all the same."""
    for format, vertical, switch in product(range(4), (True, False), SWITCHES):
        for sides, palette in [("P", (True, False)), ("Q", (False, True)), ("both sides", (True, True))]:
            picture = step(format, switch, vertical, palette)
            luma = beside(*palette, [100, 101, 101, 102, 103, 103, 104, 104], 100, 104)
            chroma = beside(*palette, [54, 56], 50, 60)
            edge = 16 if format == 3 or (format == 2 and not vertical) else 8
            gives = [crossed(picture, 0, vertical, luma, 16 - 4)]
            gives += [crossed(picture, plane, vertical, chroma, edge - 1) if format else [] for plane in (1, 2)]
            name = f"palette cells on {sides}, {'vertical' if vertical else 'horizontal'} edge, switch {switch}, format {format}"
            yield Case(f"C-19: {name}", picture, check=same_as(gives))


def flags(colour):
    """One cell of a picture with flags bytes up to the last that is allowed, and past it."""
    for value, cell in product((16, 20, 24, 28, 31, 32, 48, 64, 96, 128, 255), (0, 3, 7)):
        picture = colour()
        picture.cells[8 * cell + 1] = value
        yield Case(f"C-19: cell {cell} has flags {value}", picture, *((9, cell) if value > 31 else (0, 0)))


def refusals(faults, colour):
    """Each cause is answered as without a palette cell."""
    for number, (name, spoil, place) in faults.items():
        picture = colour(slices=[(0, 6, 6, 1)] * 2)
        picture.set_cells(lambda record, x, y: record.__setitem__(1, record[1] | PALETTE))
        spoil(picture)
        yield Case(f"C-19: every cell a palette cell, {name}", picture, number, place)


def check_turned(cases, found):
    """Each turned picture has the answer and the planes of the one before it; how many there are."""
    pairs = [number for number, case in enumerate(cases) if case.name.endswith("; turned")]
    for number in pairs:
        assert cases[number].picture.cells == cases[number - 1].picture.turned().cells
        assert found[number][:2] == found[number - 1][:2], cases[number].name
    return len(pairs)
