#!/bin/sh
# Proves the library (rt lib), builds the tool and deblocks the shipped example: examples/run.sh
# Needs the Rattle kit's rt, cargo and rustc. What it writes goes to target/example. It proves what the library is
# made of and no more: term 3 and the programs are proved by .ci/run. With TINLADLE_LIB_DIR set nothing is proved: the
# library there is taken as it is.
set -eu
root=$(cd "$(dirname "$0")/.." && pwd)
cd "$root"
command -v cargo >/dev/null || {
    echo "examples/run.sh: cargo is missing: put cargo and rustc on the PATH" >&2
    exit 2
}
if [ -n "${TINLADLE_LIB_DIR:-}" ]; then
    echo "NOT PROVED: TINLADLE_LIB_DIR is set, and the library in $TINLADLE_LIB_DIR is taken as it is" >&2
else
    echo "proving the library, unless that is done, and building the tool; the first time takes some minutes" >&2
fi
cargo build --quiet --release --offline --locked --manifest-path rust/Cargo.toml
tinladle() {
    cargo run --quiet --release --offline --locked --manifest-path rust/Cargo.toml --bin tinladle -- "$@"
}
mkdir -p target/example
tinladle deblock examples/example.pic target/example/filtered.pic
tinladle tiles examples/example.pic
tinladle picture examples/example.pic target/example/example.ppm
