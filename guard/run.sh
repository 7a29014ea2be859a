#!/bin/sh
# Builds the static library and runs the guard over it: guard/run.sh
# It stands outside the gate: it tries from C what the proofs say, and the calling convention, which they do not
# speak of.
set -eu
root=$(cd "$(dirname "$0")/.." && pwd)
cd "$root"
mkdir -p target/guard
scripts/library.sh
${CC:-cc} -std=c11 -O1 -g -Wall -Wextra -Werror -Iinclude -o target/guard/guard \
    guard/guard.c target/staticlib/libtinladle.a
target/guard/guard
