#!/usr/bin/env python3
"""Pictures for the stage, as records, and the text that is expected of them.

    picture_records.py random COUNT SEED              writes COUNT random records to standard output, and after each its
                                                      other forms: without the strengths that have no edge, with the
                                                      record that an empty slice list stands for, and with lossless
                                                      cells for palette cells
    picture_records.py expect                         reads records, writes the expected text
    picture_records.py compare INPUT EXPECTED ACTUAL  tallies the lines; status 1 at a difference

Numbers and places are those of ledger.py; the planes of accepted pictures are the oracle's, or the second program's where
the Rust does not decide (run build.sh first).
"""

import struct
import sys
from collections import Counter

sys.dont_write_bytecode = True

import conversion
from ledger import CELL_BYTES, SCALES, chroma_length, verdict
from records import Random
from stored import first_difference, run_oracle

MARK = 0x53484C54
HEAD = struct.Struct("<I6I2iI10I")
JUNK = 0xABCD  # what the output planes hold before the stage

VERTICAL, HORIZONTAL, LOSSLESS, PCM = 1, 2, 4, 8
PALETTE = 16  # document 02, C-19

DEFAULT_SLICE = (0, 6, 5, 1)  # what an empty slice list stands for: document 02, C-13
PLAIN_SLICE = (0, 6, 6, 1)  # a slice with offsets 0


class Picture:
    """Flat planes, no edges, one slice record and one tile, unless told otherwise. The output lengths are
    those of the format; a case may spoil any field afterwards."""

    def __init__(self, width=16, height=16, format=0, luma_depth=8, chroma_depth=8, log2_ctb=4, cb_offset=0,
                 cr_offset=0, pcm_switch=0, slices=(PLAIN_SLICE,), columns=(0,), rows=(0,), qp=37):
        self.width, self.height, self.format = width, height, format
        self.luma_depth, self.chroma_depth, self.log2_ctb = luma_depth, chroma_depth, log2_ctb
        self.cb_offset, self.cr_offset, self.pcm_switch = cb_offset, cr_offset, pcm_switch
        chroma = chroma_length(self)
        self.planes = [[100] * (width * height), [100] * chroma, [100] * chroma]
        self.out_lengths = (width * height, chroma, chroma)
        self.cells = bytearray(bytes([qp + 64, 0, 0, 0, 0, 0, 0, 0]) * (width * height // 16))
        self.slices = bytearray(byte for record in slices for byte in record)
        self.columns, self.rows = list(columns), list(rows)

    def with_fields(self, **fields):
        """The same picture with other fields."""
        again = Picture.__new__(Picture)
        again.__dict__.update(self.__dict__, **fields)
        return again

    def with_slices(self, *records):
        """The same picture with other slice records."""
        return self.with_fields(slices=bytearray(byte for record in records for byte in record))

    def suppressed(self, x, y):
        """The cell at a cell column and cell row keeps its samples."""
        flags = self.cells[8 * (y * (self.width // 4) + x) + 1]
        return bool(flags & (LOSSLESS | PALETTE) or (flags & PCM and self.pcm_switch))

    def has_palette(self):
        return any(flags & PALETTE for flags in self.cells[1::8])

    def turned(self):
        """The same picture with flag bit 4, palette, turned into bit 2, lossless, in every cell: the stage must answer it alike
        and filter it alike (document 02, C-19)."""
        cells = bytearray(self.cells)
        cells[1::8] = bytes(flags & ~PALETTE | LOSSLESS if flags & PALETTE else flags for flags in cells[1::8])
        return self.with_fields(cells=cells)

    def in_rule(self):
        """Each bS above 0 has its edge flag (document 02, C-14)."""
        return conversion.first_out_of_rule(self.cells) is None

    def converted(self):
        """The same picture with its cell list converted: it is filtered alike (document 02, C-14)."""
        return self.with_fields(cells=conversion.converted(self.cells))

    def plane_width(self, plane):
        return self.width if plane == 0 else self.width // SCALES[self.format][0]

    def plane_height(self, plane):
        return self.height if plane == 0 else self.height // SCALES[self.format][1]

    def fill(self, plane, sample):
        """Sets each sample of a plane to sample(column, row)."""
        self.planes[plane] = [sample(x, y) for y in range(self.plane_height(plane))
                              for x in range(self.plane_width(plane))]

    def set_cells(self, change):
        """Calls change(record, cell column, cell row), which changes the record of eight bytes."""
        across = self.width // 4
        for number in range(len(self.cells) // 8):
            record = self.cells[8 * number:8 * number + 8]
            change(record, number % across, number // across)
            self.cells[8 * number:8 * number + 8] = record

    def pack(self):
        y, cb, cr = self.planes
        lists = [pack_numbers(y), pack_numbers(cb), pack_numbers(cr), bytes(self.cells), bytes(self.slices),
                 pack_numbers(self.columns), pack_numbers(self.rows)]
        lengths = (len(y), len(cb), len(cr), *self.out_lengths, len(self.cells), len(self.slices), len(self.columns),
                   len(self.rows))
        head = HEAD.pack(MARK, self.width, self.height, self.format, self.luma_depth, self.chroma_depth,
                         self.log2_ctb, self.cb_offset, self.cr_offset, self.pcm_switch, *lengths)
        return head + b"".join(lists)


def pack_numbers(numbers):
    return struct.pack(f"<{len(numbers)}H", *numbers)


def unpack(data):
    """The pictures of a run of records, with the bytes of each; a short last record gives None."""
    at = 0
    while at < len(data):
        start = at
        if len(data) - at < HEAD.size:
            yield None, data[start:]
            return
        fields = HEAD.unpack_from(data, at)
        at += HEAD.size
        assert fields[0] == MARK
        lengths = fields[10:]
        if len(data) - at < 2 * sum(lengths[:3]) + sum(lengths[6:8]) + 2 * sum(lengths[8:]):
            yield None, data[start:]
            return

        def numbers(count):
            nonlocal at
            at += 2 * count
            return list(struct.unpack(f"<{count}H", data[at - 2 * count:at]))

        def some(count):
            nonlocal at
            at += count
            return bytearray(data[at - count:at])

        picture = Picture.__new__(Picture)
        (picture.width, picture.height, picture.format, picture.luma_depth, picture.chroma_depth, picture.log2_ctb,
         picture.cb_offset, picture.cr_offset, picture.pcm_switch) = fields[1:10]
        picture.planes = [numbers(count) for count in lengths[:3]]
        picture.out_lengths = tuple(lengths[3:6])
        picture.cells, picture.slices = some(lengths[6]), some(lengths[7])
        picture.columns, picture.rows = numbers(lengths[8]), numbers(lengths[9])
        yield picture, data[start:at]


# ---- What is expected ----

def fingerprint(samples):
    """FNV-1a of 64 bits, a sample for a byte."""
    value = 0xCBF29CE484222325
    for sample in samples:
        value = (value ^ sample) * 0x100000001B3 % 2 ** 64
    return value


def line(number, answer, planes):
    return " ".join([str(number), *map(str, answer), *(f"{fingerprint(plane):016x}" for plane in planes)]) + "\n"


def oracle(pictures, name="picture"):
    """The oracle's output planes for each accepted picture, and what it says: its counts of segments. The Rust has no palette
    input; it is given the turned picture."""
    given = pictures if name == "second" else [picture.turned() for picture in pictures]
    output, says = run_oracle(name, b"".join(picture.pack() for picture in given))
    samples = struct.unpack(f"<{len(output) // 2}H", output)
    planes, at = [], 0
    for picture in pictures:
        planes.append([])
        for plane in picture.planes:
            planes[-1].append(list(samples[at:at + len(plane)]))
            at += len(plane)
    assert at == len(samples)
    return planes, says.strip()


def decided(pictures):
    """The output planes of each accepted picture by the one who decides: the Rust, or where an open chroma segment in 4:2:0
    has an index above 57 the second program (docs/DIFFERENCES.md, 1), which must give the Rust's planes everywhere else. On a
    picture with palette cells the second program decides too (DIFFERENCES, 9), and must give what the Rust gives of the turned
    one. Besides, the Rust's counts, and which pictures are left to the second program alone."""
    planes, counts = oracle(pictures)
    check_fallback(pictures, planes)
    second, says = oracle(pictures, "second")
    numbers = set(map(int, says.split()))
    left = [number in numbers for number in range(1, len(pictures) + 1)]
    for number, (own, other, parts) in enumerate(zip(planes, second, left), 1):
        assert parts or own == other, f"the second program and the Rust differ on accepted picture {number}"
    return [own if not parts and not picture.has_palette() else other
            for picture, own, other, parts in zip(pictures, planes, second, left)], counts, left


def check_fallback(pictures, planes):
    """The Rust leaves of each picture with an empty slice list what it leaves with the record that the list stands for."""
    empty = [(picture, own) for picture, own in zip(pictures, planes) if not picture.slices]
    again, _ = oracle([picture.with_slices(DEFAULT_SLICE) for picture, _ in empty])
    assert [own for _, own in empty] == again, "the Rust's fallback is another record than the one that is passed"


def check_unconverted(pairs):
    """`pairs`: pictures accepted before document 02's C-14, and the planes expected of them converted. Those are what the Rust
    leaves of the pictures as they are, or the second program where it decides."""
    filtered, *_ = decided([picture for picture, _ in pairs])
    for number, ((_, planes), own) in enumerate(zip(pairs, filtered), 1):
        assert own == planes, f"unconverted picture {number} of {len(pairs)} is filtered otherwise than converted"


def converted_after(pictures):
    """The numbers, from 0, of pictures accepted before document 02's C-14 whose converted form comes next."""
    return [number for number, (picture, after) in enumerate(zip(pictures, pictures[1:]))
            if picture and after and not picture.in_rule() and verdict(picture, rule=False) == (0, 0)
            and after.pack() == picture.converted().pack()]


def expected(pictures):
    """For each picture (None for a short record) its answer, output planes and line; and what was counted."""
    answers = [None if picture is None else verdict(picture) for picture in pictures]
    filtered, counts, left = decided([picture for picture, answer in zip(pictures, answers) if answer == (0, 0)])
    filtered = iter(filtered)
    found = []
    for number, (picture, answer) in enumerate(zip(pictures, answers), 1):
        if picture is None:
            found.append((None, None, "short\n"))
            continue
        planes = next(filtered) if answer == (0, 0) else [[JUNK] * length for length in picture.out_lengths]
        found.append((answer, planes, line(number, answer, planes)))
    palette = sum(answer == (0, 0) and picture.has_palette() for picture, answer in zip(pictures, answers))
    unconverted = converted_after(pictures)
    assert all(found[number + 1][0] == (0, 0) for number in unconverted), "a converted picture is refused"
    check_unconverted([(pictures[number], found[number + 1][1]) for number in unconverted])
    return found, (f"{counts}; left to the second program: {sum(left)}; with palette cells: {palette};"
                   f" held to the picture before, unconverted: {len(unconverted)}")


def tally(lines):
    """Counts the lines by number."""
    counts = Counter(text.split()[1] if " " in text else text.strip() for text in lines)
    parts = [f"accepted: {counts.pop('0', 0)}"]
    parts += [f"refused {number}: {counts.pop(str(number), 0)}" for number in range(1, 11)]
    return ", ".join(parts + [f"{word}: {count}" for word, count in sorted(counts.items())])


# ---- Random pictures ----

def random_plane(random, width, height, depth):
    """Blocks of 8 by 8, or of 4 by 4, each nearly flat or sloped, at levels near each other."""
    largest, scale = 2 ** depth - 1, 2 ** (depth - 8)
    size = random.pick(8, 8, 4)
    middle = random.pick(0, largest, random.between(0, largest), random.between(0, largest))
    spread = random.pick(2, 6, 12, 30) * scale
    rough = random.pick(0, 1, 1, 2, 8) * scale
    across = -(-width // size)
    blocks = [(middle + random.between(-spread, spread), random.between(-1, 1) * scale * random.below(3),
               random.between(-1, 1) * scale * random.below(3)) for _ in range(across * -(-height // size))]
    samples = []
    for y in range(height):
        for x in range(width):
            level, slope_x, slope_y = blocks[y // size * across + x // size]
            sample = level + slope_x * (x % size) + slope_y * (y % size) + (random.below(rough + 1) if rough else 0)
            samples.append(min(max(sample, 0), largest))
    return samples


def random_starts(random, ctbs, most):
    starts = [0] + [start for start in range(1, ctbs) if random.chance(40)]
    return starts[:most]


def random_cells(random, picture, marks):
    lowest = -6 * (picture.luma_depth - 8)
    count = max(1, len(picture.slices) // 4)
    middle = random.pick(random.between(lowest, 51), random.between(25, 51), random.between(30, 51))
    reach = random.pick(0, 3, 12, 60)
    edges = random.pick(100, 100, 90, 60)
    by_rows = random.chance(70)
    cells = len(picture.cells) // 8

    def change(record, x, y):
        number = y * (picture.width // 4) + x
        qp = min(51, max(lowest, middle + random.between(-reach, reach)))
        flags = (VERTICAL if random.chance(edges) else 0) + (HORIZONTAL if random.chance(edges) else 0)
        if marks:
            flags += (LOSSLESS if random.chance(8) else 0) + (PCM if random.chance(12) else 0)
        own = number * count // cells if by_rows else random.below(count)
        record[:6] = bytes([qp + 64, flags, random.pick(0, 1, 1, 2, 2, 2), random.pick(0, 1, 1, 2, 2, 2), own % 256,
                            own // 256])
    picture.set_cells(change)


def random_slices(random):
    count = random.pick(0, 1, 1, 2, 3, 5)
    return [(int(random.chance(15)), random.between(0, 12) if random.chance(50) else 6,
             random.between(0, 12) if random.chance(50) else 6, int(random.chance(60))) for _ in range(count)]


def random_picture(random, largest_width=64, largest_height=48, **given):
    """A picture that is accepted once it is converted (C-14). `given` fixes fields of Picture."""
    fields = dict(width=8 * random.between(1, largest_width // 8), height=8 * random.between(1, largest_height // 8),
                  format=random.below(4), luma_depth=random.pick(8, 8, 10, random.between(8, 16)),
                  chroma_depth=random.pick(8, 8, 10, random.between(8, 16)), log2_ctb=random.between(4, 6),
                  cb_offset=random.pick(0, -12, 12, random.between(-12, 12)),
                  cr_offset=random.pick(0, -12, 12, random.between(-12, 12)), pcm_switch=random.below(2),
                  slices=random_slices(random))
    fields.update(given)
    size = 2 ** fields["log2_ctb"]
    tiled = random.chance(50)
    for name, length, most in [("columns", fields["width"], 20), ("rows", fields["height"], 22)]:
        if name not in fields:
            fields[name] = random_starts(random, -(-length // size), most) if tiled else [0]
    picture = Picture(**fields)
    random_cells(random, picture, marks=random.chance(50))
    for plane in range(3 if picture.format else 1):
        depth = picture.chroma_depth if plane else picture.luma_depth
        picture.planes[plane] = random_plane(random, picture.plane_width(plane), picture.plane_height(plane), depth)
    return picture


def damage(random, picture):
    """One change to any field, most often past the end of its range."""
    kind = random.below(17)
    if kind < 8:
        damage_setting(random, picture, kind)
    else:
        damage_list(random, picture, kind)


def damage_setting(random, picture, kind):
    if kind == 0:
        picture.width = random.pick(0, 4, 12, picture.width + 8, max(0, picture.width - 8), 8200)
    elif kind == 1:
        picture.height = random.pick(0, 4, 12, picture.height + 8, max(0, picture.height - 8), 8200)
    elif kind == 2:
        picture.format = random.pick(4, 5, random.below(4))
    elif kind == 3:
        picture.luma_depth = random.pick(7, 17, 0, random.between(8, 16))
    elif kind == 4:
        picture.chroma_depth = random.pick(7, 17, 0, random.between(8, 16))
    elif kind == 5:
        picture.log2_ctb = random.pick(3, 7, 0, random.between(4, 6))
    elif kind == 6:
        picture.cb_offset = random.pick(-13, 13, 12)
    else:
        picture.cr_offset = random.pick(-13, 13, -12)


def damage_list(random, picture, kind):
    if kind == 8:
        plane = random.pick(*picture.planes)
        plane.append(0) if random.chance(50) or not plane else plane.pop()
    elif kind == 9:
        lengths = list(picture.out_lengths)
        lengths[random.below(3)] += 1
        picture.out_lengths = tuple(lengths)
    elif kind == 10:
        picture.slices += bytes(random.pick(1, 2, 4))
    elif kind == 11:
        random.pick(picture.columns, picture.rows).append(random.below(5))
    elif kind == 12 and picture.slices:
        picture.slices[random.below(len(picture.slices))] = random.pick(1, 2, 12, 13, 255)
    elif kind == 13:
        starts = random.pick(picture.columns, picture.rows)
        if starts:
            starts[random.below(len(starts))] = random.pick(0, 1, 2, 5, 65535)
    elif kind == 14 and picture.cells:
        picture.cells[random.below(len(picture.cells))] = random.pick(0, 1, 2, 3, 16, 63, 116, 255)
    elif kind == 15 and picture.cells:
        part_strength(random, picture)
    else:
        plane = random.pick(*picture.planes)
        if plane:
            plane[random.below(len(plane))] = random.pick(255, 256, 1023, 1024, 32767, 32768, 65535)


def part_strength(random, picture):
    """Sets a strength of one cell, or clears its edge flag, or both."""
    at = CELL_BYTES * random.below(len(picture.cells) // CELL_BYTES)
    byte, flag = random.pick((2, VERTICAL), (3, HORIZONTAL))
    if random.chance(70):
        picture.cells[at + byte] = random.pick(1, 2)
    if random.chance(70):
        picture.cells[at + 1] &= ~flag


def mark_palette(random, picture):
    """Palette marks on some cells or on many."""
    percent = random.pick(5, 30)
    picture.set_cells(lambda record, x, y: record.__setitem__(1, record[1] | (PALETTE if random.chance(percent) else 0)))


def forms(picture):
    """A picture and its other forms: converted where a strength has no edge; and, each answered as the one before, with the
    record that an empty slice list stands for, and with lossless cells for palette cells."""
    yield picture
    if not picture.in_rule():
        picture = picture.converted()
        yield picture
    if not picture.slices:
        picture = picture.with_slices(DEFAULT_SLICE)
        yield picture
    if picture.has_palette():
        yield picture.turned()


def random_input(count, seed):
    """Records, one in four with palette marks, some or many, three in ten damaged once to three times; some damage is none. About
    half of them have strengths without an edge when they are drawn. One in two of those is converted at once, before any
    damage; the other comes as it is, and then converted."""
    random = Random(seed)
    for _ in range(count):
        picture = random_picture(random, *random.pick((64, 48), (64, 48), (64, 48), (64, 48), (24, 24), (200, 136)))
        if random.chance(25):
            mark_palette(random, picture)
        if random.chance(50):
            picture = picture.converted()
        if random.chance(30):
            for _ in range(random.pick(1, 1, 1, 2, 3)):
                damage(random, picture)
        yield from (form.pack() for form in forms(picture))


def check_forms(pictures, given):
    """The program answers each form of a picture as the one before, but for the conversion; how many have an empty slice list,
    and how many palette cells beside slice records."""
    rest = [(number, picture) for number, picture in enumerate(pictures) if picture and picture.in_rule()]
    empty = [number for number, picture in rest if not picture.slices]
    palette = [number for number, picture in rest if picture.slices and picture.has_palette()]
    for number in empty + palette:
        own, again = (text.split()[1:] for text in given[number:number + 2])
        assert own == again, f"records {number + 1} and {number + 2}, two forms of one picture, are answered otherwise"
    return (f"empty slice lists, each answered as the record: {len(empty)}; pictures with palette cells, each answered as with"
            f" lossless ones: {len(palette)}")


def check_conversions(pictures, given):
    """The program refuses each picture with a strength that has no edge, and accepts it converted where it was accepted before
    document 02's C-14; how many there are."""
    answers = [text.split()[1:3] for text in given]
    edgeless = [number for number, picture in enumerate(pictures) if picture and not picture.in_rule()]
    assert all(1 <= int(answers[number][0]) <= 9 for number in edgeless), "a strength without an edge is not refused"
    unconverted = converted_after(pictures)
    for number in unconverted:
        place = str(conversion.first_out_of_rule(pictures[number].cells))
        assert answers[number:number + 2] == [["9", place], ["0", "0"]], f"records {number + 1} and {number + 2}"
    return (f"pictures with a strength that has no edge, each refused: {len(edgeless)}, of which accepted before, and accepted"
            f" converted: {len(unconverted)}")


def compare(input_path, expected_path, actual_path):
    data, expected, actual = (open(path, "rb").read() for path in (input_path, expected_path, actual_path))
    wanted, given = (text.decode(errors="replace").splitlines(keepends=True) for text in (expected, actual))
    pictures = [picture for picture, _ in unpack(data)]
    assert len(wanted) == len(pictures), "there is no line for each picture"
    print(f"{len(wanted)} pictures; {tally(wanted)}")
    if wanted == given:
        print(f"no difference; {check_forms(pictures, given)}; {check_conversions(pictures, given)}")
        return 0
    number = first_difference(wanted, given)
    differ = sum(a != b for a, b in zip(wanted, given))
    print(f"DIFFERENCE at record {number + 1} (the first is 1); lines that differ: {differ}")
    print("expected:", wanted[number] if number < len(wanted) else "(nothing)")
    print("actual:  ", given[number] if number < len(given) else "(nothing)")
    return 1


def main():
    arguments = sys.argv[1:]
    if arguments[:1] == ["random"] and len(arguments) == 3:
        for record in random_input(int(arguments[1]), int(arguments[2])):
            sys.stdout.buffer.write(record)
    elif arguments == ["expect"]:
        found, counts = expected([picture for picture, _ in unpack(sys.stdin.buffer.read())])
        sys.stdout.writelines(text for _, _, text in found)
        print(counts, file=sys.stderr)
    elif arguments[:1] == ["compare"] and len(arguments) == 4:
        sys.exit(compare(*arguments[1:]))
    else:
        sys.exit(__doc__)


if __name__ == "__main__":
    main()
