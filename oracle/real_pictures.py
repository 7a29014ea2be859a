#!/usr/bin/env python3
"""The stored real pictures, and the text that is expected of them.

    real_pictures.py [--check] [REAL]  writes (or checks) stdin and stdout of crates/real_pictures

REAL is the folder of real pictures, by default ../shared/real seen from the repository's root. The
fingerprints are of the planes in it, which another decoder filtered, and not of the oracle's or the stage's;
where the oracles are built, they must give the same: of the first twelve the Rust and the second program, of the
thirteenth, which has chroma indices above 57 in 4:2:0, the second program, and the Rust without its clip. The
script stops where the Rust gives another difference there than docs/DIFFERENCES.md says. One picture has strengths
without an edge, and is stored converted (document 02, C-14): the oracles must give the same planes of it as it was taken.
As it was taken it comes last, and is refused.
"""

import gzip
import struct
import sys
from pathlib import Path

sys.dont_write_bytecode = True

from ledger import CELL_BYTES, verdict
from picture_records import JUNK, decided, line, oracle, unpack
from stored import HOW, ROOT, oracle_path, stop, store

REAL = ROOT / ".." / "shared" / "real"
COUNT = 13
# 4:2:0 with chroma indices above 57 (docs/DIFFERENCES.md, 1); stored thirteenth.
PARTING = "clip_q51_p12_p9_tcm4_001"
# The one with strengths that have no edge (document 02, C-14).
EDGELESS = "inj_all_444_10_000"
EDGELESS_ANSWER = 9, 1


def unzipped(folder, name):
    return gzip.decompress((folder / f"{name}.gz").read_bytes())


def read_picture(folder, name):
    data = unzipped(folder, f"{name}.sheet")
    (picture, record), = unpack(data)
    assert record == data == picture.pack() and verdict(picture, rule=False) == (0, 0)
    return picture


def read_planes(folder, name, picture):
    """The planes that another decoder left of a picture."""
    after = unzipped(folder, f"{name}.expect")
    number, place = struct.unpack_from("<iQ", after)
    assert (number, place) == (0, 0)
    samples = struct.unpack(f"<{len(after[12:]) // 2}H", after[12:])
    planes, at = [], 0
    for plane in picture.planes:
        planes.append(list(samples[at:at + len(plane)]))
        at += len(plane)
    assert at == len(samples)
    return planes


def read(folder, name):
    """The picture and the expected planes."""
    picture = read_picture(folder, name)
    assert verdict(picture) == (EDGELESS_ANSWER if name == EDGELESS else (0, 0))
    return picture, read_planes(folder, name, picture)


def taken_from(folder):
    """The names, the pictures as they were taken and the expected planes, in the order in which they are stored."""
    if not folder.is_dir():
        stop(f"{folder} is missing: run oracle/{Path(sys.argv[0]).name} with the folder of the real pictures, REAL")
    names = sorted({path.name.removesuffix(".sheet.gz") for path in folder.glob("*.sheet.gz")} - {PARTING}) + [PARTING]
    if len(names) != COUNT or not (folder / f"{PARTING}.sheet.gz").exists():
        stop(f"{folder}: other real pictures than the {COUNT} that are stored, {PARTING} among them")
    return names, *zip(*(read(folder, name) for name in names))


def positions_differing(picture, planes, others):
    """For each plane the columns and rows of the samples that differ."""
    return [[(number % picture.plane_width(plane), number // picture.plane_width(plane))
             for number, pair in enumerate(zip(planes[plane], others[plane])) if pair[0] != pair[1]]
            for plane in range(3)]


def parting(picture, planes):
    """Where the Rust's planes are not the expected ones of the thirteenth picture."""
    (clipped,), _ = oracle([picture])
    luma, cb, cr = positions_differing(picture, clipped, planes)
    edge = [(x, y) for y in (47, 48) for x in range(7)]
    assert (luma, cb, cr) == ([], edge, edge), (luma, cb, cr)
    return f"{PARTING}: the Rust differs in {len(cb)} samples of Cb and {len(cr)} of Cr, not without its clip"


def check_oracles(taken, stored, wanted):
    """All oracles beside the expected planes, on the pictures as they were taken and as they are stored; what to say of it."""
    for pictures in (taken, stored):
        planes, counts, left = decided(pictures)
        assert left == [False] * (COUNT - 1) + [True]
        assert planes == wanted and oracle(pictures, "unclipped")[0] == wanted
    return [counts, parting(stored[-1], wanted[-1])]


def lost(picture):
    """What the picture loses by the conversion."""
    changed = [number for number, pair in enumerate(zip(picture.cells, picture.converted().cells)) if pair[0] != pair[1]]
    cells = {number // CELL_BYTES for number in changed}
    return (f"{EDGELESS}: {len(changed)} strengths in {len(cells)} cells have no edge, the first in cell {min(cells)}; converted,"
            " and at the end as it was taken")


def main():
    arguments = sys.argv[1:]
    checking = arguments[:1] == ["--check"]
    rest = arguments[checking:]
    if len(rest) > 1 or rest and rest[0].startswith("-"):
        sys.exit(__doc__)
    names, taken, planes = taken_from(Path(rest[0]) if rest else REAL)
    stored = [picture.converted() for picture in taken]
    says = [f"not compared with the oracle, which is not built: {HOW}"]
    if oracle_path("picture").exists():
        says = check_oracles(taken, stored, list(planes))
    edgeless = taken[names.index(EDGELESS)]
    says.append(lost(edgeless))
    lines = [line(number, (0, 0), own) for number, own in enumerate(planes, 1)]
    lines.append(line(COUNT + 1, EDGELESS_ANSWER, [[JUNK] * length for length in edgeless.out_lengths]))
    files = {"crates/real_pictures/stdin": b"".join(picture.pack() for picture in (*stored, edgeless)),
             "crates/real_pictures/stdout": "".join(lines).encode()}
    store(files, checking)
    print(f"{len(stored)} real pictures: {', '.join(names)}", *says, sep="\n")


if __name__ == "__main__":
    main()
