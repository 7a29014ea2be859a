#!/bin/sh
# Runs the oracle and PROGRAM on the same random pictures: oracle/compare_pictures.sh [SRC] PROGRAM COUNT SEED
# With SRC, as oracle/build.sh takes it, the oracle is built first. PROGRAM is crates/picture_cases/out/picture_cases, or another that
# prints the same. Prints a tally. The status is 0 only where the outputs are the same bytes.
set -eu
here=$(cd "$(dirname "$0")" && pwd)
if [ $# -eq 4 ]; then
    "$here/build.sh" "$1"
    shift
fi
[ $# -eq 3 ] || { echo "usage: $0 [SRC] PROGRAM COUNT SEED" >&2; exit 2; }
"$here/beside.sh" picture_records.py "$@"
