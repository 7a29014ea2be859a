"""Stored pictures with strengths that have no edge, or almost: document 02, C-14. One out of rule is refused with 9, and the
place is the first cell out of rule or out of range."""

from itertools import product

from picture_case import Case
from picture_records import HORIZONTAL, LOSSLESS, PALETTE, PCM, VERTICAL, Picture

CELLS = (0, 10, 15)  # of 16 by 16: the first, the one below and right of both edges within, the last

# By the flag bits 0 and 1, which pairs of a vertical and a horizontal bS are in rule.
IN_RULE = {0: [(0, 0)], 1: [(0, 0), (1, 0), (2, 0)], 2: [(0, 0), (0, 1), (0, 2)], 3: [*product(range(3), repeat=2)]}

# Converted pictures of each format, with tiles and with slices, one that lost one strength and one that lost all.
UNCONVERTED = ["72 by 24, log2 CTB 6, format 0", "tiles 0, 2 across, CTB 64", "format 2, depths 15 and 9",
               "format 3, depths 8 and 16", "slices: two, the first disabled; format 3", "bS 2 and no edge flag", "random 3"]


def with_cell(picture, cell, flags, vertical, horizontal):
    picture.cells[8 * cell + 1:8 * cell + 4] = bytes([flags, vertical, horizontal])
    return picture


def combinations(crossed):
    """Both flags with both strengths in one cell. All other cells have both edges."""
    for cell, flags in product(CELLS, range(4)):
        for pair in product(range(3), repeat=2):
            answer = (0, 0) if pair in IN_RULE[flags] else (9, cell)
            name = f"C-14: cell {cell} has flags {flags}, vertical bS {pair[0]}, horizontal bS {pair[1]}"
            yield Case(name, with_cell(crossed(), cell, flags, *pair), *answer)


def marks(crossed):
    """The other flags are no edge, and an edge of one direction is none of the other."""
    for mark in (LOSSLESS, PCM, PALETTE, LOSSLESS | PCM | PALETTE):
        for word, pair, own, other in [("vertical", (2, 0), VERTICAL, HORIZONTAL), ("horizontal", (0, 1), HORIZONTAL, VERTICAL)]:
            for flags, number in [(mark, 9), (mark | other, 9), (mark | own, 0)]:
                name = f"C-14: cell 10 has flags {flags} and {word} bS {max(pair)}"
                yield Case(name, with_cell(crossed(), 10, flags, *pair), number, 10 if number else 0)


def far():
    """One cell out of rule among many."""
    for cell in (100, 191):
        picture = with_cell(Picture(64, 48), cell, VERTICAL, 0, 1)
        yield Case(f"C-14: cell {cell} of 192 has flags 1 and horizontal bS 1", picture, 9, cell)


def past_range(crossed):
    """What is no strength is refused with its edge and without."""
    for bs, flags in product((3, 255), (0, 3)):
        for word, pair in [("vertical", (bs, 0)), ("horizontal", (0, bs))]:
            yield Case(f"C-14: cell 10 has flags {flags} and {word} bS {bs}", with_cell(crossed(), 10, flags, *pair), 9, 10)


def several(faults, colour):
    """A cell out of rule beside each cause: the lower number counts, and within 9 the first cell, whatever is wrong with it."""
    def base():
        return colour(slices=[(0, 6, 6, 1)] * 2)
    for number, (name, spoil, place) in faults.items():
        for cell in (2, 7) if number > 8 else (2,):
            picture = with_cell(base(), cell, HORIZONTAL, 1, 0)
            spoil(picture)
            first = min(cell, place) if number == 9 else cell
            yield Case(f"C-14: cell {cell} out of rule and {name}", picture, *((number, place) if number < 9 else (9, first)))
    picture = with_cell(base(), 6, VERTICAL, 0, 2)
    faults[9][1](picture)
    yield Case("C-14: cell 6 out of rule and out of range", picture, 9, 6)
    picture = with_cell(with_cell(base(), 5, VERTICAL, 0, 1), 3, HORIZONTAL, 2, 0)
    yield Case("C-14: cells 3 and 5 out of rule: the first counts", picture, 9, 3)


def first_changed(before, after):
    """The first cell whose record the conversion changes."""
    return next(number for number, pair in enumerate(zip(before.cells, after.cells)) if pair[0] != pair[1]) // 8


def unconverted(case):
    """A converted case's picture as it was before."""
    name = case.name.removesuffix("; converted")
    return Case(f"C-14: {name}, unconverted", case.before, 9, first_changed(case.before, case.picture))


def unconverted_first(cases):
    """Pictures as they were before, and right after each the same converted."""
    by_name = {case.name: case for case in cases if case.before}
    for name in UNCONVERTED:
        case = by_name[f"{name}; converted"]
        yield unconverted(case)
        yield Case(f"C-14: {case.name}", case.picture, check=case.check)
