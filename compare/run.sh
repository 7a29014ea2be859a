#!/bin/sh
# The stage beside the customer's Rust on random and on adversarial pictures, the conversion of random cell lists, the checksums and pixels
# of the pictures and of random planes, and the way back from floats to samples:
# compare/run.sh [SRC] [--accepted N] [--damaged N] [--far N] [--planes N] [--floats N] [--seed S] [--threads T]
# SRC is the customer's folder docs/src, by default ../shared/docs/src seen from the repository's root. By default 100,000 accepted,
# 100,000 damaged and 100,000 adversarial pictures, 100,000 pictures' planes and 30,000,000 floats from seed 20261115, on all cores, and as
# many lists as accepted pictures.
# Prints a tally. The status is 0 only where nothing differs; at the first difference the smallest picture found that shows it is printed
# and written to target/compare/smallest, as a record that crates/picture_cases/out/picture_cases reads.
set -eu
root=$(cd "$(dirname "$0")/.." && pwd)
case ${1:-} in
'' | --*) "$root/scripts/customer.sh" ;;
*)
    "$root/scripts/customer.sh" "$1"
    shift
    ;;
esac
"$root/scripts/library.sh"
cd "$root"
mkdir -p target/compare
# Checks stay on: an overflow or a range out of bounds in the customer's code is a difference.
rustc --edition 2024 -C opt-level=3 -C debug-assertions=on -C overflow-checks=on \
    -L native=target/staticlib -l static=tinladle -o target/compare/compare compare/main.rs
target/compare/compare "$@"
# The program is not in the library.
program=crates/convert_cells/out/convert_cells
if [ -x "$program" ]; then
    target/compare/compare --program "$program" --accepted 2000
else
    echo "not compared: $program, which rt run in crates/convert_cells proves and builds"
fi
