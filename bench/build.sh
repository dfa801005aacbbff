#!/usr/bin/env bash
# Builds the benchmark's programs from an archive of the library: target/bench for times, target/bytes for bytes copied.
# Usage: bench/build.sh ARCHIVE
set -euo pipefail
[ $# -eq 1 ] || { echo "use: bench/build.sh ARCHIVE" >&2; exit 2; }
archive=$(realpath "$1")
cd "$(dirname "$0")/.."
mkdir -p target/timed target/counted

cp "$archive" target/timed/libgambyre.a
rustc --edition 2021 -O bench/bench.rs -L target/timed -o target/bench

# The library's calls go to functions of bench/bytes.rs, the program's own don't.
objcopy --redefine-sym memcpy=gambyre_counted_memcpy --redefine-sym memmove=gambyre_counted_memmove \
    --redefine-sym memset=gambyre_counted_memset "$archive" target/counted/libgambyre.a
rustc --edition 2021 -O bench/bytes.rs -L target/counted -o target/bytes
