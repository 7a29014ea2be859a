"""A stored picture with what is expected of it."""

from picture_records import HORIZONTAL, PLAIN_SLICE, VERTICAL, check_unconverted, random_picture


class Case:
    """A picture with a name, the number and place expected, and a check of the output planes. `before` is the picture of a
    converted case as it was stored before."""

    def __init__(self, name, picture, number=0, place=0, check=None):
        self.name, self.picture, self.answer, self.check = name, picture, (number, place), check
        self.before = None

    def look_at(self, planes):
        """Stops where the output planes are not what the case says they are."""
        try:
            if self.check:
                self.check(planes)
        except AssertionError as error:
            raise AssertionError(f"{self.name}: other samples than expected") from error


def outright(case):
    """Passes the record outright that an empty slice list stood for before document 02's C-13, so that the output stays."""
    if not case.picture.slices:
        case.picture = case.picture.with_slices(PLAIN_SLICE)
    return case


def converted(case):
    """Converts an accepted picture with a strength that has no edge (document 02, C-14), so that the output stays."""
    if case.answer == (0, 0) and not case.picture.in_rule():
        case.before, case.picture = case.picture, case.picture.converted()
        case.name += "; converted"
    return case


def check_converted(accepted):
    """`accepted`: cases with their expected planes. Those of a converted picture are what the oracles leave of the picture
    before; how many there are."""
    pairs = [(case.before, planes) for case, planes in accepted if case.before]
    check_unconverted(pairs)
    return len(pairs)


def moves(case_picture):
    """A check that the output differs from the original."""
    def check(planes):
        assert planes != case_picture.planes
    return check


def stays(case_picture):
    def check(planes):
        assert planes == case_picture.planes
    return check


def same_as(planes):
    def check(found):
        assert found == planes
    return check


def edges(picture, bs=2):
    """Every cell has both edges, at one bS."""
    def change(record, x, y):
        record[1:4] = bytes([VERTICAL | HORIZONTAL, bs, bs])
    picture.set_cells(change)
    return picture


def marked_picture(random, format, switch, *marks):
    """Blocks at levels near each other, every edge of bS 2, and each cell marked with one of the marks."""
    picture = random_picture(random, width=32, height=32 if format < 3 else 16, format=format, luma_depth=8,
                             pcm_switch=switch, slices=[PLAIN_SLICE], columns=[0], rows=[0])
    level = [random.below(12) for _ in range(16)]
    picture.fill(0, lambda x, y: 100 + level[4 * (y // 8) + x // 8])

    def change(record, x, y):
        record[:4] = bytes([64 + 40, VERTICAL | HORIZONTAL | random.pick(*marks), 2, 2])
    picture.set_cells(change)
    return picture
