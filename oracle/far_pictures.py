#!/usr/bin/env python3
"""The stored pictures of document 02's C-23, whose samples go as far as they may or less, and a program beside the oracle.

    far_pictures.py                            writes stdin and stdout of crates/far_pictures, and oracle/far_pictures.txt
    far_pictures.py --check                    says whether those files are what it would write
    far_pictures.py stored PROGRAM             does PROGRAM print the stored text of the stored pictures?
    far_pictures.py beside PROGRAM COUNT SEED  PROGRAM beside the oracle, on random pictures; status 1 at a difference

First come the pictures that `target/compare/compare --search` finds, then those of far_made.py, then a truncated record. To
write, the search is run. To check, it is run again where that program is built, and must find the stored ones; else those are
taken. The script stops where a picture that was found does not meet the bound in each of its planes, or where not every place
beside a crossing is met in either direction; and where a picture made by hand is answered otherwise, or its samples go
otherwise far or end otherwise. far_records.py has the lines. far_pictures.txt lists the records: number, the rest of the line, name.
"""

import subprocess
import sys
import tempfile
from collections import Counter
from pathlib import Path

sys.dont_write_bytecode = True

from far_made import made
from far_records import beside, bound, expected
from picture_records import unpack
from stored import ROOT, differs_from_stored, is_checking, listed, stop, store

FOLDER = "crates/far_pictures"
SEARCH = ROOT / "target" / "compare" / "compare"
SEED = "20261115"

# Columns and rows modulo 8 of the samples beside a crossing that the search is after: in luma the second and third from either
# edge, and in the third row the first; in chroma the first.
LUMA_PLACES = {(x, y) for x in (5, 6, 1, 2) for y in (5, 6, 1, 2)} | {(x, y) for x in (7, 0) for y in (5, 2)}
CHROMA_PLACES = {(x, y) for x in (7, 0) for y in (7, 0)}


def searched():
    """The records that the search writes."""
    with tempfile.TemporaryDirectory() as scratch:
        path = Path(scratch) / "found"
        done = subprocess.run([SEARCH, "--search", path, "--seed", SEED], capture_output=True, text=True)
        if done.returncode:
            said = (done.stdout + done.stderr).strip().splitlines()
            stop(f"target/compare/compare --search ended with status {done.returncode}: {said[-1] if said else 'nothing'}")
        return path.read_bytes()


def stored_records():
    """The records stored before those made by hand."""
    path = ROOT / FOLDER / "stdin"
    if not path.is_file():
        sys.exit(f"{FOLDER}/stdin is missing: far_pictures.py without --check writes it")
    records = [data for _, data in unpack(path.read_bytes())]
    return b"".join(records[:-len(made()) - 1])


def found_records(checking):
    """The records of the pictures found, and what to say of the search."""
    if not SEARCH.exists():
        if not checking:
            stop("target/compare/compare is missing: compare/run.sh builds it")
        return stored_records(), "not searched again, as target/compare/compare is not built"
    return searched(), "searched again"


def name_of(picture, far, planes):
    """What a picture that was found shows."""
    words = []
    for plane, name in enumerate(("Y", "Cb", "Cr") if picture.format else ("Y",)):
        (distance, place), width, samples = far[plane], picture.plane_width(plane), picture.planes[plane]
        (level, flat), = Counter(samples).most_common(1)
        way = "up" if planes[plane][place] > samples[place] else "down"
        words.append(f"{name} ({place % width}, {place // width}) {way}, {len(samples) - flat} off level {level}")
    return (f"found, format {picture.format}, depths {picture.luma_depth} and {picture.chroma_depth},"
            f" {picture.width} by {picture.height}: {'; '.join(words)}")


def check_found(pictures, found):
    """Each bound is met in each plane, by every place beside a crossing, up and down."""
    seen = set()
    for number, (picture, (answer, far, planes, _)) in enumerate(zip(pictures, found), 1):
        assert answer == (0, 0), number
        for plane in range(3 if picture.format else 1):
            distance, place = far[plane]
            assert distance == bound(picture, plane), (number, plane, distance)
            width = picture.plane_width(plane)
            seen.add((plane, place % width % 8, place // width % 8, planes[plane][place] > picture.planes[plane][place]))
    places = enumerate((LUMA_PLACES, CHROMA_PLACES, CHROMA_PLACES))
    wanted = {(plane, x, y, up) for plane, at in places for x, y in at for up in (False, True)}
    assert seen == wanted, sorted(wanted ^ seen)
    kinds = {(picture.format, picture.luma_depth) for picture in pictures if picture.luma_depth == picture.chroma_depth}
    assert kinds == {(format, depth) for format in range(4) for depth in range(8, 17)}
    return len(seen)


def check_made(cases, found):
    for case, (answer, far, planes, _) in zip(cases, found):
        assert answer == case.answer, (case.name, answer)
        assert far == list(map(tuple, case.far or ())), (case.name, far)
        assert all(planes[plane][place] == sample for (plane, place), sample in case.ends.items()), case.name


def write_or_check():
    checking = is_checking(__doc__)
    data, says = found_records(checking)
    pictures, cases = [picture for picture, _ in unpack(data)], made()
    found = expected([*pictures, *(case.picture for case in cases), None])
    places = check_found(pictures, found)
    check_made(cases, found[len(pictures):])
    short = cases[0].picture.pack()[:-1]
    lines = [line for *_, line in found]
    names = [name_of(picture, far, planes) for picture, (_, far, planes, _) in zip(pictures, found)]
    names += [*(case.name for case in cases), "one byte is missing"]
    files = {f"{FOLDER}/stdin": data + b"".join(case.picture.pack() for case in cases) + short,
             f"{FOLDER}/stdout": "".join(lines).encode(),
             "oracle/far_pictures.txt": listed(lines, names)}
    store(files, checking)
    print(f"{len(lines)} records of {len(files[f'{FOLDER}/stdin'])} bytes: {len(pictures)} found, {says}, with {places} places"
          f" and ways; {len(cases)} made by hand; one short")


def main():
    if sys.argv[1:2] == ["beside"] and len(sys.argv) == 5:
        sys.exit(beside(sys.argv[2], *map(int, sys.argv[3:])))
    if sys.argv[1:2] == ["stored"] and len(sys.argv) == 3:
        if differs_from_stored(sys.argv[2], FOLDER):
            sys.exit(1)
        print("no difference")
        return
    write_or_check()


if __name__ == "__main__":
    main()
