#!/bin/sh
# Proves the library and builds target/staticlib/libtinladle.a, unless that is done; says nothing but why it failed:
# scripts/library.sh
set -eu
cd "$(dirname "$0")/.."
command -v rt >/dev/null || {
    echo "scripts/library.sh: rt is missing: put the Rattle kit's rt on the PATH" >&2
    exit 2
}
mkdir -p target/staticlib
(cd crates/tinladle && rt lib) >target/staticlib.out 2>&1 || {
    tail -n 20 target/staticlib.out >&2
    exit 1
}
cp crates/tinladle/out/libtinladle.a target/staticlib/
