#!/usr/bin/env python3
"""Is the comparison awake? Breaks the sources at one place at a time, and runs the comparison on what is broken.

    compare/mutants.py [SRC]            SRC: the customer's folder docs/src, by default ../shared/docs/src seen from the repository's root
    compare/mutants.py [SRC] --only K   mutant K alone
    compare/mutants.py [SRC] --from K   mutant K and those after it
    compare/mutants.py --places         builds nothing: does each mutant's place stand once in the sources?

A mutant is a copy of the sources under target/mutants changed at one place, built without proof (unproved.py). The comparison loads its
library in place of the proved static library, or runs its program convert_cells. Of what the bench prints and the stage does not, and of
single entries of a table, the program segment_bench is run beside the oracle, on random records and on those that read each entry. Of how
far samples go the program far_pictures is run, and held to its stored text, of what is printed of checksums checksum_cases or
real_checksums, and of pixels and floats pixel_cases or float_cases. The unchanged sources go first: there nothing may be found.
Prints a line for each mutant. The status is 0 where every mutant was noticed but those that are argued to change no output.
"""

import os
import shutil
import signal
import subprocess
import sys
from pathlib import Path

sys.dont_write_bytecode = True

from mutant_edits import EDITS
from unproved import (BENCH, CONVERTER, FAR, FINISHED, LIBRARY, PIXELS, RECOVERED, ROOT, SUMS, WORK, begin, build_library, build_program,
                      copy_sources, must, renamed)

ACCEPTED, DAMAGED, ADVERSARIAL, PLANES, FLOATS, SEED = 4000, 8000, 4000, 4000, 200_000, 7
LISTS = 300  # through convert_cells, each of up to 160 KiB
RECORDS = 2000  # through segment_bench
PATIENCE = 120  # seconds for one run: a mutant may not end


def build(crate, folder):
    return build_library(folder) if crate == LIBRARY else build_program(crate, folder)


def prepare(source):
    """The folders of the unchanged library and programs, the comparison linked to such a library, and the oracle."""
    must(ROOT / "oracle" / "build.sh", source)
    begin()
    unchanged = {crate: copy_sources(crate, crate) for crate in COMPARISONS}
    if not all(build(crate, folder) for crate, folder in unchanged.items()):
        sys.exit("the unchanged sources do not compile")
    must("rustc", "--edition", "2024", "-C", "opt-level=3", "-C", "debug-assertions=on", "-C", "overflow-checks=on", "-L",
         f"native={unchanged[LIBRARY]}", "-l", "dylib=tinladle", "-o", WORK / "compare", ROOT / "compare" / "main.rs")
    return unchanged


def difference(*command, **environment):
    """What a comparison says: None where it finds nothing."""
    # A group of its own: what does not end is stopped with the programs that it runs.
    running = subprocess.Popen([str(word) for word in command], stdout=subprocess.PIPE, stderr=subprocess.PIPE, text=True,
                               start_new_session=True, env={**os.environ, **environment})
    try:
        printed, complained = running.communicate(timeout=PATIENCE)
    except subprocess.TimeoutExpired:
        os.killpg(running.pid, signal.SIGKILL)
        running.communicate()
        return "does not end"
    if running.returncode == 0:
        return None
    if running.returncode < 0:
        return f"stopped by signal {-running.returncode}"
    found = [line for line in printed.splitlines() if line.startswith("DIFFERENCE")]
    if not found:
        sys.exit(f"the comparison failed with status {running.returncode}: {complained.strip()[-200:]}")
    return found[0].split(": ", 1)[-1].removeprefix("DIFFERENCE ")


def compare_stage(library, *words):
    return difference(WORK / "compare", *words, "--seed", SEED, "--no-shrink", LD_LIBRARY_PATH=str(library))


def compare_library(folder):
    return compare_stage(folder, "--accepted", ACCEPTED, "--damaged", DAMAGED, "--far", ADVERSARIAL, "--planes", PLANES,
                         "--floats", FLOATS)


def compare_converter(folder):
    return compare_stage(WORK / LIBRARY, "--program", folder / "program", "--accepted", LISTS)


def compare_bench(folder):
    """On random records, and on those that read every entry of the table of the luma tc."""
    oracle, program = ROOT / "oracle", folder / "program"
    found = (difference(oracle / "compare_bench.sh", program, RECORDS, SEED)
             or difference(oracle / "table_records.py", "beside", program))
    return found and f"bench: {found}"


def compare_stored(script, word, crate):
    """A program with its stored text, by a script of the oracle's."""
    def compare(folder):
        found = difference(ROOT / "oracle" / script, word, folder / "program")
        return found and f"{crate}: {found}"
    return compare


COMPARISONS = {LIBRARY: compare_library, CONVERTER: compare_converter, BENCH: compare_bench,
               FAR: compare_stored("far_pictures.py", "stored", FAR), SUMS: compare_stored("checksums.py", "stored", SUMS),
               FINISHED: compare_stored("checksums.py", "finished", FINISHED), PIXELS: compare_stored("pixels.py", "stored", PIXELS),
               RECOVERED: compare_stored("floats.py", "stored", RECOVERED)}


def place(crates, edit):
    """The file that a mutant changes, in a folder of crates. In a copy it may have another name."""
    crate, name = edit.file.split("/")
    path = crates / crate / "src" / f"{name}.rt"
    return path if path.is_file() else renamed(path)


def check_places():
    """Stops where a mutant's text does not stand once in its file, and names each such mutant."""
    wrong = []
    for number, edit in enumerate(EDITS, 1):
        path = place(ROOT / "crates", edit)
        count = path.read_text().count(edit.old) if path.is_file() else 0
        if count != 1:
            wrong.append(f"mutant {number}: {edit.old!r} is {count} times in {edit.file}")
    if wrong:
        sys.exit("\n".join(wrong))


def mutate(number, edit, crate):
    folder = copy_sources(f"{number:02}", crate)
    path = place(folder, edit)
    path.write_text(path.read_text().replace(edit.old, edit.new))
    return folder


def short(text):
    """On one line, and without what would end a cell of the table."""
    return " ".join(text.split()).replace("|", "\\|")


def try_one(number, edit):
    """Prints the mutant's line; whether it came out as expected."""
    folder = mutate(number, edit, edit.built)
    built = build(edit.built, folder)
    found = COMPARISONS[edit.built](folder) if built else "does not compile"
    shutil.rmtree(folder)
    outcome = found or (f"not noticed: {edit.equal}" if edit.equal else "NOT NOTICED")
    print(f"| {number} | {edit.file} | `{short(edit.old)}` | `{short(edit.new)}` | {outcome} |", flush=True)
    return built and (found is None) == bool(edit.equal)


def try_unchanged(unchanged):
    """Whether nothing is found in the unchanged sources."""
    print(f"comparison with --accepted {ACCEPTED} --damaged {DAMAGED} --far {ADVERSARIAL} --planes {PLANES} --floats {FLOATS}"
          f" --seed {SEED}; of {CONVERTER} with {LISTS} lists, of {BENCH} with {RECORDS} records and the table's, of {FAR}, {SUMS},"
          f" {FINISHED}, {PIXELS} and {RECOVERED} with what is stored of them")
    found = [COMPARISONS[crate](folder) for crate, folder in unchanged.items()]
    for crate, what in zip(unchanged, found):
        print(f"the unchanged {crate}, unproved: {what or 'no difference'}", flush=True)
    return not any(found)


def asked(words):
    """The first and the last mutant to try. Takes what asks for them out of the words."""
    for word in ("--only", "--from"):
        if word in words:
            at = words.index(word)
            first = int(words[at + 1])
            del words[at:at + 2]
            return first, first if word == "--only" else len(EDITS)
    return 1, len(EDITS)


def main():
    words = sys.argv[1:]
    check_places()
    if words == ["--places"]:
        print(f"each of {len(EDITS)} mutants has its place")
        return
    first, last = asked(words)
    source = Path(words[0] if words else ROOT.parent / "shared" / "docs" / "src").resolve()
    good = try_unchanged(prepare(source))
    print("| | file | line | mutant | noticed by |\n|---|---|---|---|---|")
    results = [try_one(number, edit) for number, edit in enumerate(EDITS, 1) if first <= number <= last]
    noticed = sum(not edit.equal for edit in EDITS)
    print(f"{len(results)} of {len(EDITS)} mutants tried, {results.count(True)} as expected; {noticed} of all are expected to be noticed")
    sys.exit(0 if good and results and all(results) else 1)


if __name__ == "__main__":
    main()
