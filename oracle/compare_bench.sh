#!/bin/sh
# Runs the oracle and PROGRAM on the same random records: oracle/compare_bench.sh PROGRAM [COUNT] [SEED]
# Prints a tally. The status is 0 only where the outputs are the same bytes.
set -eu
[ $# -ge 1 ] || { echo "usage: $0 PROGRAM [COUNT] [SEED]" >&2; exit 2; }
"$(dirname "$0")/beside.sh" records.py "$1" "${2:-20000}" "${3:-1}"
