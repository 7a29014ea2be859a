"""The stored inputs and outputs of two revisions, by git: what outright.py, in_rule.py and counted.py share."""

import subprocess
import sys

from picture_records import unpack
from stored import ROOT

PICTURES = ["picture_cases", "real_pictures", "tile_cases"]


def git(*arguments):
    return subprocess.run(["git", "-C", ROOT, *arguments], check=True, capture_output=True).stdout


def stored(revision, crate, stream):
    return git("show", f"{revision}:crates/{crate}/{stream}")


def records(revision, crate):
    """The pictures, with their bytes; a short last record is left out."""
    return [(picture, data) for picture, data in unpack(stored(revision, crate, "stdin")) if picture]


def lines(revision, crate):
    return [line for line in stored(revision, crate, "stdout").splitlines() if line != b"short"]


def check_pictures(crate, before, after, become, says):
    """Each record of BEFORE stands at its place, the same bytes or as it was to become, and each line of its output is there."""
    old, new = records(before, crate), records(after, crate)
    others = become([picture for picture, _ in old])
    for number, ((_, data), other, (_, now)) in enumerate(zip(old, others, new), 1):
        assert now == (other.pack() if other else data), f"{crate}: record {number} is another"
    said = lines(before, crate)
    assert len(new) >= len(old) and lines(after, crate)[:len(said)] == said, f"{crate}: the output moved"
    changed = sum(other is not None for other in others)
    print(f"{crate}: {len(old)} pictures, {changed} {says}; {len(said)} lines of output, the same")


def streams(revision):
    """The stored inputs and outputs, and the shipped example."""
    names = git("ls-tree", "-r", "--name-only", revision, "crates/").decode().split()
    return [*(name for name in names if name.endswith(("/stdin", "/stdout"))), "examples/example.pic"]


def beside(revision):
    """Those that are no pictures' records or lines."""
    own = tuple(f"crates/{crate}/" for crate in PICTURES)
    return [name for name in streams(revision) if not name.startswith(own)]


def two_revisions(usage):
    if len(sys.argv) not in (2, 3):
        sys.exit(usage)
    return (sys.argv[1:] + ["HEAD"])[:2]


def run(usage, become, says):
    """`become` has for each picture of BEFORE the one that it is to be, or None where it is to stay; `says` tells of those."""
    before, after = two_revisions(usage)
    for crate in PICTURES:
        check_pictures(crate, before, after, become, says)
    for name in beside(before):
        assert git("show", f"{before}:{name}") == git("show", f"{after}:{name}"), f"{name} moved"
        print(f"{name}: the same bytes")
