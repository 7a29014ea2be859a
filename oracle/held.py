"""What the scripts of document 02's C-22 share: their commands, and a program held to stored text and to random records."""

import sys
from collections import Counter

from records import Random
from stored import differs, differs_from_stored, is_checking

BATCH = 5000  # records that PROGRAM is given at once


def beside(program, count, seed, drawn, line):
    """1 where PROGRAM prints other lines of random records than are expected, else 0. `drawn` gives a record's bytes and what its line
    has, of a source of numbers."""
    random, answers = Random(seed), Counter()
    for start in range(0, count, BATCH):
        records = [drawn(random) for _ in range(min(BATCH, count - start))]
        lines = [line(number, *found) for number, (_, found) in enumerate(records, 1)]
        if differs(program, b"".join(data for data, _ in records), lines, start):
            return 1
        answers.update(number for _, ((number, _), _) in records)
    refused = ", ".join(f"refused {number}: {answers[number]}" for number in sorted(answers) if number)
    print(f"{count} records; answered: {answers[0]}, {refused}\nno difference")
    return 0


def stored(program, folder):
    """1 where PROGRAM prints another text than the stored one, or anything of no input, else 0."""
    if differs_from_stored(program, folder) or differs(program, b"", []):
        return 1
    print("no difference")
    return 0


def run(usage, folder, write_or_check, drawn, line):
    """The script's command."""
    match sys.argv[1:]:
        case ["stored", program]:
            sys.exit(stored(program, folder))
        case ["beside", program, count, seed]:
            sys.exit(beside(program, int(count), int(seed), drawn, line))
        case _:
            write_or_check(is_checking(usage))
