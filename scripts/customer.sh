#!/bin/sh
# Links the customer's Rust to target/oracle/customer, from where our programs compile it unchanged:
# scripts/customer.sh [SRC]
# SRC is the customer's folder docs/src, by default ../shared/docs/src seen from the repository's root.
set -eu
root=$(cd "$(dirname "$0")/.." && pwd)
src=${1:-$root/../shared/docs/src}
for file in src/deblock.rs src/tiles.rs src/threadpool.rs src/avx/deblock.rs; do
    [ -f "$src/$file" ] || {
        echo "scripts/customer.sh: the Rust source is missing: there is no $src/$file. Pass as SRC, the first" \
            "argument, a folder that holds src/deblock.rs, src/tiles.rs, src/threadpool.rs and src/avx/deblock.rs" \
            "of the repository awxkee/hpvcd at commit 9d5be06b6b" >&2
        exit 2
    }
done
src=$(cd "$src" && pwd)
mkdir -p "$root/target/oracle"
ln -sfn "$src" "$root/target/oracle/customer"
