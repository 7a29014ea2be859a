#!/bin/sh
# Builds the oracles: oracle/build.sh [SRC]
# SRC is the customer's folder docs/src, by default ../shared/docs/src seen from the repository's root.
# The programs are target/oracle/bench and target/oracle/picture; target/oracle/second, the filter written from H.265, which decides where
# the Rust does not follow it; and target/oracle/unclipped, which is picture without the clip of the chroma index to 57, a witness beside
# second (docs/DIFFERENCES.md, 1).
set -eu
root=$(cd "$(dirname "$0")/.." && pwd)
"$root/scripts/customer.sh" "$@"
cd "$root"
# Checks stay on: an overflow or a range out of bounds in the customer's code stops the oracle.
build() {
    program=$1
    source=$2
    shift 2
    rustc --edition 2024 -O -C debug-assertions=on -C overflow-checks=on "$@" -o "target/oracle/$program" "oracle/$source.rs"
}
build bench bench
build picture picture
build unclipped picture --cfg unclipped
build second second
