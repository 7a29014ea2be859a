#!/bin/sh
# Our static library beside the customer's Rust, in one program: speed/run.sh [SRC]
# SRC is the customer's folder docs/src, by default ../shared/docs/src seen from the repository's root.
# RUNS (default 15): how often each is run, in turn.
set -eu
root=$(cd "$(dirname "$0")/.." && pwd)
"$root/scripts/customer.sh" "$@"
"$root/scripts/library.sh"
cd "$root"
mkdir -p target/speed
# The feature "avx" makes the customer's `resolve_..` functions look for AVX2; the scalar path does not go through them.
rustc --edition 2024 -C opt-level=3 --cfg 'feature="avx"' \
    -L native=target/staticlib -l static=tinladle -o target/speed/speed speed/speed.rs
target/speed/speed "${RUNS:-15}"
