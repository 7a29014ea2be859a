#!/bin/sh
# Runs the conversion in Python and PROGRAM on the same random cell lists: oracle/compare_conversions.sh PROGRAM COUNT SEED
# PROGRAM is crates/convert_lists/out/convert_lists, or another that reads and writes the same. Prints a tally. The status is 0 only where
# the outputs are the same bytes.
set -eu
[ $# -eq 3 ] || { echo "usage: $0 PROGRAM COUNT SEED" >&2; exit 2; }
"$(dirname "$0")/beside.sh" list_records.py "$@"
