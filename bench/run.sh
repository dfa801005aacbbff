#!/usr/bin/env bash
# Builds the library and the benchmark, and prints what a slot, an arrival, a load, a choice, a text, a boost and a measurement
# cost: times, then bytes copied. Arguments go to the program that takes the times.
set -euo pipefail
cd "$(dirname "$0")/.."
bash build.sh gambyre
bash bench/build.sh target/staticlib/libgambyre.a
target/bench "$@"
target/bytes
