"""Real pictures with the checksums that their encoders wrote into the streams (document 02, C-11).

checksums.txt in their folder has the names and those sums; a picture has the cells of NAME.cells.gz in place of its own. What is
expected is read there, and worked out by nothing of ours.
"""

import sys
from pathlib import Path

from checksum import checksums
from checksum_records import line
from ledger import verdict
from picture_records import decided
from real_pictures import read_picture, read_planes, unzipped
from stored import stop

FOLDER = "crates/real_checksums"


def encoded_sums(folder):
    """Names, and the sums that the encoders wrote."""
    path = folder / "checksums.txt"
    if not path.is_file():
        stop(f"{path} is missing: run oracle/{Path(sys.argv[0]).name} with the folder of pictures and encoders' sums, MOTION")
    words = [text.split() for text in path.read_text().splitlines() if not text.startswith("#")]
    return {name: [int(value, 16) for value in sums] for name, *sums in words}


def with_own_cells(folder, name):
    picture = read_picture(folder, name).with_fields(cells=bytearray(unzipped(folder, f"{name}.cells")))
    assert verdict(picture) == (0, 0), name
    return picture


def check_sums(folder, pictures, wanted):
    """The encoders' sums are those of the oracle's planes, and of those of another decoder, where they are there, which are the
    same planes; how many those are."""
    others = 0
    for (name, picture), planes in zip(pictures.items(), decided(list(pictures.values()))[0]):
        assert checksums(picture, planes) == wanted[name], name
        if (folder / f"{name}.expect.gz").exists():
            assert read_planes(folder, name, picture) == planes, name
            others += 1
    return others


def files(folder):
    """What is stored, and what to say of it."""
    wanted = encoded_sums(folder)
    pictures = {name: with_own_cells(folder, name) for name in wanted}
    others = check_sums(folder, pictures, wanted)
    lines = [line(number, (0, 0), sums) for number, sums in enumerate(wanted.values(), 1)]
    stored = {f"{FOLDER}/stdin": b"".join(picture.pack() for picture in pictures.values()),
              f"{FOLDER}/stdout": "".join(lines).encode()}
    return stored, (f"{FOLDER}: {len(pictures)} pictures of {len(stored[f'{FOLDER}/stdin'])} bytes, {sum(map(len, wanted.values()))} sums"
                    f" of their encoders, which the oracle's planes have; another decoder's planes of {others}, too")
