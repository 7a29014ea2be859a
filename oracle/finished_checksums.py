"""The checksums of the finished planes of every stored picture that the stage is run on (document 02, C-11).

Number and place are those of the stage's own checks, by ledger.py; the planes are the oracle's, or the second program's where it
decides, and those of the real pictures another decoder's. The sums are checksum.py's.
"""

from checksum import checksums
from checksum_records import line
from ledger import verdict
from picture_records import decided, unpack
from real_pictures import taken_from
from stored import ROOT, differs

FILE = "oracle/finished_checksums.txt"
HEAD = "# crate, record, the verdict's number and place, the checksums of the finished planes (oracle/checksums.py writes this file)\n"
REAL_PICTURES = "real_pictures"
CRATES = ["picture_cases", "tile_cases", REAL_PICTURES, "far_pictures"]


def stored_input(crate):
    return (ROOT / "crates" / crate / "stdin").read_bytes()


def planes_of_others(pictures, real):
    """What another decoder left of the real pictures, which must be those that are stored."""
    _, taken, planes = taken_from(real)
    assert [picture.pack() for picture in pictures] == [picture.converted().pack() for picture in taken]
    return planes


def finished(crate, real):
    """The lines of a crate's pictures, without its name; the short record at the end has none."""
    pictures = [picture for picture, _ in unpack(stored_input(crate)) if picture]
    answers = list(map(verdict, pictures))
    accepted = [picture for picture, answer in zip(pictures, answers) if answer == (0, 0)]
    planes = iter(planes_of_others(accepted, real) if crate == REAL_PICTURES else decided(accepted)[0])
    sums = [checksums(picture, next(planes)) if answer == (0, 0) else [] for picture, answer in zip(pictures, answers)]
    return [line(number, *parts) for number, parts in enumerate(zip(answers, sums), 1)]


def text(real):
    """The file; `real` is the folder of the real pictures."""
    return HEAD + "".join(f"{crate} {words}" for crate in CRATES for words in finished(crate, real))


def stored_lines(crate):
    """The lines of a crate's pictures in the file, as a program prints them."""
    lines = [words.partition(" ") for words in (ROOT / FILE).read_text().splitlines(keepends=True)]
    return [rest for name, _, rest in lines if name == crate]


def is_summed_otherwise(program):
    """Whether PROGRAM prints other lines than the stored ones of a crate's pictures."""
    for crate in CRATES:
        data = stored_input(crate)
        short = ["short\n" for picture, _ in unpack(data) if picture is None]
        if differs(program, data, stored_lines(crate) + short):
            print(f"of crates/{crate}/stdin")
            return True
    return False
