#!/bin/sh
# The checksum of our static library beside a plain C loop: speed/checksum.sh
# RUNS (default 15): how often each is run, in turn. CC: the compiler, by default cc. The status is not 0 where the sums differ, or where a
# target that the last line names is missed.
set -eu
root=$(cd "$(dirname "$0")/.." && pwd)
"$root/scripts/library.sh"
cd "$root"
mkdir -p target/speed
# The loop stands in a file of its own, so that nothing is known of its planes.
for file in annex_d checksum; do
    ${CC:-cc} -std=c11 -O2 -Wall -Wextra -Werror -Iinclude -c -o "target/speed/$file.o" "speed/$file.c"
done
${CC:-cc} -o target/speed/checksum target/speed/annex_d.o target/speed/checksum.o target/staticlib/libtinladle.a
target/speed/checksum "${RUNS:-15}"
