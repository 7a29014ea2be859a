"""What the scripts of this folder share: the run of an oracle and of a program that is held to it, and the files that they
make, written or held to what is there."""

import subprocess
import sys
from pathlib import Path

ROOT = Path(__file__).resolve().parent.parent
HOW = ("run oracle/build.sh SRC, where SRC holds the Rust source: src/deblock.rs and what it leans on, of the repository"
       " awxkee/hpvcd at commit 9d5be06b6b")


def oracle_path(name):
    return ROOT / "target" / "oracle" / name


def stop(line):
    """Ends the script with one line, and with a status that is not that of a difference."""
    print(line, file=sys.stderr)
    sys.exit(2)


def run_oracle(name, data):
    """What target/oracle/NAME writes to standard output and to standard error. Where it cannot be run, one line
    says what to do."""
    if not oracle_path(name).exists():
        stop(f"target/oracle/{name} is missing: {HOW}")
    try:
        done = subprocess.run([oracle_path(name)], input=data, capture_output=True)
    except OSError as error:
        stop(f"target/oracle/{name} cannot be run ({error.strerror}): {HOW}")
    if done.returncode:
        said = " ".join(done.stderr.decode(errors="replace").splitlines()[:3])
        stop(f"target/oracle/{name} ended with status {done.returncode}: {said}")
    return done.stdout, done.stderr.decode()


def run_program(program, data):
    """What PROGRAM writes to standard output; None where it ends with another status than 0, which is a difference."""
    try:
        done = subprocess.run([program], input=data, stdout=subprocess.PIPE)
    except OSError as error:
        stop(f"{program} cannot be run: {error.strerror}")
    if done.returncode:
        print(f"DIFFERENCE: PROGRAM ended with status {done.returncode}")
        return None
    return done.stdout


def first_difference(wanted, given):
    """The first place at which two sequences differ, or the length of the shorter one."""
    pairs = enumerate(zip(wanted, given))
    return next((place for place, pair in pairs if pair[0] != pair[1]), min(len(wanted), len(given)))


def differs(program, data, wanted, before=0):
    """Whether PROGRAM prints other lines than these of some records; `before` counts the records that came before."""
    printed = run_program(program, data)
    if printed is None:
        return True
    given = printed.decode(errors="replace").splitlines(keepends=True)
    if given == wanted:
        return False
    number = first_difference(wanted, given)
    print(f"DIFFERENCE at record {before + number + 1} (the first is 1)")
    for name, lines in (("expected:", wanted), ("actual:  ", given)):
        print(name, lines[number].rstrip("\n") if number < len(lines) else "(nothing)")
    return True


def differs_from_stored(program, folder):
    """Whether PROGRAM prints another text than the one that is stored in a crate's folder."""
    data, text = ((ROOT / folder / stream).read_bytes() for stream in ("stdin", "stdout"))
    return differs(program, data, text.decode().splitlines(keepends=True))


def listed(lines, names):
    """The text that lists records: number, the rest of the line that is printed of each, or that line where it is a word, name."""
    texts = [" ".join(line.split()[1:]) or line.strip() for line in lines]
    widest = max(map(len, texts))
    return "".join(f"{number:3}  {text:{widest}}  {name}\n" for number, (text, name) in enumerate(zip(texts, names), 1)).encode()


def store(files, checking):
    """`files`: {name from the repository's root: bytes}."""
    for name, content in files.items():
        path = ROOT / name
        if not checking:
            path.write_bytes(content)
        elif not path.is_file():
            sys.exit(f"{name} is missing: {Path(sys.argv[0]).name} without --check writes it")
        elif path.read_bytes() != content:
            sys.exit(f"{name} is not what {Path(sys.argv[0]).name} would write")


def is_checking(usage):
    """Whether the script was called with --check; any other argument gets the usage."""
    arguments = sys.argv[1:]
    if arguments not in ([], ["--check"]):
        sys.exit(usage)
    return bool(arguments)
