"""Builds of the sources without proof, for mutants.py.

The kit's `rattle-cases`, which `rt try` runs, lowers a program; a stand-in for its clang keeps the module that it is given and ends the
build. From the module of a program that calls the library's functions a shared library is made, from that of convert_cells, of
segment_bench, of far_pictures, of checksum_cases, of real_checksums, of pixel_cases or of float_cases the program. All of it stands
under target/mutants.
"""

import platform
import re
import shutil
import subprocess
import sys
from functools import cache
from pathlib import Path

ROOT = Path(__file__).resolve().parent.parent
WORK = ROOT / "target" / "mutants"
LIBRARY, CONVERTER, BENCH, FAR = "tinladle", "convert_cells", "segment_bench", "far_pictures"
SUMS, FINISHED, PIXELS, RECOVERED = "checksum_cases", "real_checksums", "pixel_cases", "float_cases"
CALLER = WORK / "caller" / "main.rt"

# A program that reaches the library's functions. It only has to be compiled.
PROGRAM = """fn main() {
    let numbers: [u16; 1] = [0];
    let bytes: [u8; 1] = [0];
    let mut y: [u16; 1] = [0];
    let mut cb: [u16; 1] = [0];
    let mut cr: [u16; 1] = [0];
    let mut cells: [u8; 1] = [0];
    let mut place: u64 = 0;
    let mut sum_y: u32 = 0;
    let mut sum_cb: u32 = 0;
    let mut sum_cr: u32 = 0;
    let mut luma: f32 = 0.0;
    let mut cb_part: f32 = 0.0;
    let mut cr_part: f32 = 0.0;
    let mut sample: u16 = 0;
    let n = &numbers[..];
    let b = &bytes[..];
    let number = tinladle::tinladle_deblock(
        0, 0, 0, 0, 0, 0, 0, 0, false, n, n, n, b, b, n, n, &mut y[..], &mut cb[..], &mut cr[..], &mut place,
    );
    let converted = tinladle::tinladle_convert_cells(b, &mut cells[..], &mut place);
    let summed = tinladle::tinladle_checksum(
        0, 0, 0, 0, 0, n, n, n, &mut sum_y, &mut sum_cb, &mut sum_cr, &mut place,
    );
    let pixel = tinladle::tinladle_pixel(
        0, 0, 0, 0, 0, n, n, n, 0, 0, &mut luma, &mut cb_part, &mut cr_part, &mut place,
    );
    let recovered = tinladle::tinladle_sample(8, true, 0.0, &mut sample, &mut place);
}
"""

# It stands beside its folder's module.bc, keeps the module there and ends the build.
STAND_IN = """#!/bin/sh
cp module.bc "$(dirname "$0")/../module.bc"
exit 1
"""


def run(*words, **more):
    return subprocess.run([str(word) for word in words], capture_output=True, text=True, **more)


def must(*words):
    """Runs a command that must succeed. Our own scripts say in a line of their own why they do not."""
    done = run(*words)
    if done.returncode:
        own = ROOT in Path(words[0]).parents
        sys.exit(done.stderr.strip() if own else f"{words[0]} failed:\n{done.stdout}{done.stderr}")


@cache
def kit():
    """The folder of the kit, by where its guide stands, and within it what is for this machine."""
    home = Path(run("rt", "doc").stdout.strip()).parent.parent
    return home, home / "on" / platform.machine()


def needs_of(path):
    """What each crate of a list depends on. Each stands behind what it needs."""
    lines = [line.split(":") for line in path.read_text().splitlines() if ":" in line and line[0] != "#"]
    return {crate: words.split() for crate, words in lines}


@cache
def reached_by(name):
    """The crates that one reaches: ours, itself among them, and the kit's."""
    ours, kits = needs_of(ROOT / "crates.txt"), needs_of(kit()[0] / "libs" / "libs.txt")
    wanted = {name, "std"}
    for crate, needs in [*reversed(ours.items()), *reversed(kits.items())]:
        if crate in wanted:
            wanted.update(needs)
    return [crate for crate in ours if crate in wanted], [crate for crate in kits if crate in wanted]


def begin():
    """An empty folder but for the program and the stand-in toolchain."""
    _, own = kit()
    shutil.rmtree(WORK, ignore_errors=True)
    tools = WORK / "toolchain"
    (tools / "bin").mkdir(parents=True)
    CALLER.parent.mkdir()
    CALLER.write_text(PROGRAM)
    (tools / "lib").symlink_to(own / "toolchain" / "lib")
    for tool in ["ld.lld", "llvm-ar"]:
        (tools / "bin" / tool).symlink_to(own / "toolchain" / "bin" / tool)
    (tools / "bin" / "clang").write_text(STAND_IN)
    (tools / "bin" / "clang").chmod(0o755)
    must("cc", "-O2", "-fPIC", "-I", ROOT / "include", "-c", "-o", WORK / "unproved.o", ROOT / "compare" / "unproved.c")


def copy_sources(name, crate):
    """The sources of a crate and of all that it reaches, in a folder of their own."""
    folder = WORK / name
    crates = reached_by(crate)[0]
    for each in crates:
        shutil.copytree(ROOT / "crates" / each / "src", folder / each / "src")
        for module in (folder / each / "src").glob("*.rt"):
            if module.stem in crates:
                rename(module)
    return folder


def renamed(module):
    return module.with_stem(f"{module.stem}_module")


def rename(module):
    """Gives a module another name in its crate. rattle-cases shows all crates to each, and refuses a module with a crate's name."""
    old, new = module.stem, renamed(module).stem
    for path in module.parent.glob("*.rt"):
        path.write_text(re.sub(rf"(\bmod |crate::|^pub use ){old}\b", rf"\1{new}", path.read_text(), flags=re.MULTILINE))
    module.rename(renamed(module))


def lowered(main, crates, kits, folder):
    """The module of a program over a folder of crates; None where it does not compile."""
    home, own = kit()
    module = WORK / "toolchain" / "module.bc"
    module.unlink(missing_ok=True)
    libraries = [f"{crate}={home}/libs/{crate}/src/lib.rt" for crate in kits]
    libraries += [f"{crate}={folder}/{crate}/src/lib.rt" for crate in crates]
    words = [word for library in libraries for word in ("--lib", library)]
    done = run(own / "bin" / "rattle-cases", "--toolchain", WORK / "toolchain", main, "--crate-name", "program", *words)
    if module.exists():
        return module
    print(done.stdout, done.stderr)
    return None


def clang(*words):
    must(kit()[1] / "toolchain" / "bin" / "clang", "--target=x86_64-unknown-linux-gnu", "-march=x86-64", "-x", "ir", *words)


def build_library(folder):
    """The library, as libtinladle.so beside its sources; whether it compiles."""
    module = lowered(CALLER, *reached_by(LIBRARY), folder)
    if not module:
        return False
    stage = folder / "stage.ll"
    clang(module, "-S", "-emit-llvm", "-O0", "-o", stage)
    inner = re.compile(r'@"tinladle::\w+::tinladle_(\w+)"\(')
    text = stage.read_text()
    functions = set(inner.findall(text))
    text = inner.sub(r"@unproved_\1(", text.replace("@main(", "@unused_main("))
    for function in functions:
        head = f"noundef i32 @unproved_{function}("
        assert f"define internal {head}" in text
        text = text.replace(f"define internal {head}", f"define {head}")
    stage.write_text(text)
    clang(stage, "-c", "-O2", "-fPIC", "-o", folder / "stage.o")
    must("cc", "-shared", "-o", folder / "libtinladle.so", folder / "stage.o", WORK / "unproved.o")
    return True


def build_program(name, folder):
    """A program, as `program` beside its sources; whether it compiles."""
    crates, kits = reached_by(name)
    module = lowered(folder / name / "src" / "main.rt", [crate for crate in crates if crate != name], kits, folder)
    if not module:
        return False
    clang(module, "-c", "-O2", "-fPIC", "-o", folder / "program.o")
    must("cc", "-o", folder / "program", folder / "program.o")
    return True
