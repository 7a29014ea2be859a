#!/usr/bin/env python3
"""The stored planes and pictures of document 02's C-11, and programs that print checksums beside checksum.py.

    checksums.py [--check] [MOTION [REAL]]  writes (or checks) stdin and stdout of crates/checksum_cases and crates/real_checksums,
                                            oracle/checksums.txt and oracle/finished_checksums.txt
    checksums.py stored PROGRAM             does PROGRAM print the stored text of the stored planes, and end where it should?
    checksums.py finished PROGRAM           and PROGRAM that of the pictures of the encoders, and of all other stored pictures?
    checksums.py beside PROGRAM COUNT SEED  PROGRAM beside checksum.py, on random planes; status 1 at a difference

MOTION is the folder of pictures with their encoders' sums, REAL that of the real pictures, by default ../shared/motion and
../shared/real seen from the repository's root. Of the planes of checksum_made.py the lines are checksum.py's; the script stops where
one is answered otherwise than its case says, or has another sum than was worked out by hand. checksums.txt lists them: number, the
rest of the line, name. motion_pictures.py has the pictures of the encoders, finished_checksums.py those of the other crates.
"""

import sys
from pathlib import Path

sys.dont_write_bytecode = True

import finished_checksums
import motion_pictures
from checksum_made import made
from checksum_records import bare, beside, expected, line
from real_pictures import REAL
from stored import ROOT, differs, differs_from_stored, listed, store

FOLDER = "crates/checksum_cases"
MOTION = ROOT / ".." / "shared" / "motion"
MOST = 40_000  # samples of a plane that the program holds


def check_case(case):
    """The answer and the sums, which are the case's."""
    answer, sums = expected(case.picture)
    assert answer == case.answer, (case.name, answer)
    assert case.sums in (None, sums), (case.name, sums)
    return answer, sums


def case_files():
    """What is stored of the planes, and what to say of it."""
    cases = made()
    assert all(len(plane) <= MOST for case in cases for plane in case.picture.planes)
    lines = [line(number, *check_case(case)) for number, case in enumerate(cases, 1)] + ["short\n"]
    names = [*(case.name for case in cases), "one byte is missing"]
    data = b"".join(case.picture.pack() for case in cases) + cases[0].picture.pack()[:-1]
    files = {f"{FOLDER}/stdin": data, f"{FOLDER}/stdout": "".join(lines).encode(), "oracle/checksums.txt": listed(lines, names)}
    accepted, by_hand = sum(case.answer == (0, 0) for case in cases), sum(case.sums is not None for case in cases)
    return files, (f"{FOLDER}: {len(lines)} records of {len(data)} bytes, {accepted} accepted, the sums of {by_hand} by hand,"
                   f" {len(cases) - accepted} refused, one short")


def finished_files(real):
    text = finished_checksums.text(real)
    pictures = text.splitlines()[1:]
    accepted = sum(words.split()[2:4] == ["0", "0"] for words in pictures)
    return {finished_checksums.FILE: text.encode()}, f"{finished_checksums.FILE}: {len(pictures)} pictures, {accepted} accepted"


def write_or_check(arguments):
    checking = arguments[:1] == ["--check"]
    folders = arguments[checking:]
    if len(folders) > 2 or any(folder.startswith("-") for folder in folders):
        sys.exit(__doc__)
    motion, real = map(Path, folders + [MOTION, REAL][len(folders):])
    for files, says in [case_files(), motion_pictures.files(motion), finished_files(real)]:
        store(files, checking)
        print(says)


def ends_otherwise(program):
    """Whether PROGRAM says something else of empty input, and where a record ends the run."""
    picture = bare(100, 8, 8, 1)
    good, record = line(1, *expected(picture)), picture.pack()
    large = bare(0, 40_008, 1, 0)
    return any(differs(program, data, lines) for data, lines in [
        (b"", []), (record + b"\0" * 80 + record, [good, "no picture\n"]), (record + large.pack() + record, [good, "too large\n"]),
        (record + record[:79], [good, "short\n"]), (record + record[:-1], [good, "short\n"])])


def stored(program):
    """The status: 1 where PROGRAM prints something else than is stored of given planes."""
    return int(differs_from_stored(program, FOLDER) or ends_otherwise(program))


def finished(program):
    """The same of finished planes."""
    return int(differs_from_stored(program, motion_pictures.FOLDER) or finished_checksums.is_summed_otherwise(program))


def held(name, *words):
    """The status of a command that holds a program to what is expected of it, and says so where nothing differs."""
    if name == "beside" and len(words) == 3:
        return beside(words[0], *map(int, words[1:]))
    if len(words) != 1 or name == "beside":
        sys.exit(__doc__)
    status = stored(*words) if name == "stored" else finished(*words)
    if not status:
        print("no difference")
    return status


def main():
    words = sys.argv[1:]
    if words[:1] in (["stored"], ["finished"], ["beside"]):
        sys.exit(held(*words))
    write_or_check(words)


if __name__ == "__main__":
    main()
