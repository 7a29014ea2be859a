#!/bin/sh
# PROGRAM beside an oracle on the same random input: oracle/beside.sh RECORDS PROGRAM COUNT SEED
# It serves compare_bench.sh, compare_conversions.sh and compare_pictures.sh. RECORDS is the script of this folder that writes
# the input and the expected text, and compares that text with PROGRAM's.
set -eu
here=$(cd "$(dirname "$0")" && pwd)
records=$here/$1
program=$(command -v "$2") || {
    echo "there is no program $2" >&2
    exit 2
}
scratch=$(mktemp -d)
trap 'rm -rf "$scratch"' EXIT

"$records" random "$3" "$4" >"$scratch/input"
"$records" expect <"$scratch/input" >"$scratch/expected"
status=0
"$program" <"$scratch/input" >"$scratch/actual" || { echo "DIFFERENCE: PROGRAM ended with status $?"; status=1; }
"$records" compare "$scratch/input" "$scratch/expected" "$scratch/actual" || status=1

"$program" </dev/null >"$scratch/nothing" || { echo "DIFFERENCE: PROGRAM ended with status $? on empty input"; status=1; }
[ ! -s "$scratch/nothing" ] || { echo "DIFFERENCE: empty input prints something"; status=1; }
exit $status
