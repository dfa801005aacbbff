#!/usr/bin/env bash
# The tests beside the proofs: the programs on plan files and texts, the table of deadlines, the model's test of itself,
# installing the library, the header and the examples in C and C++, and the comparison of the proved library with the model,
# which takes several processors by itself.
# Usage: tests/run.sh [SLOTS [SEED]], how many slots are compared, and the seed of the first run.
set -euo pipefail
cd "$(dirname "$0")/.."
slots=${1:-10000000}
seed=${2:-5}

# beside NAME COMMAND..: begins a command that takes one processor, while the script goes on with another.
beside() {
    local name=$1
    shift
    "$@" >"target/$name.log" 2>&1 &
    beside=$! beside_log=target/$name.log
}

# joined: waits for the command beside, and shows what it printed.
joined() {
    local status=0
    wait "$beside" || status=$?
    cat "$beside_log"
    return $status
}

# The archive, and the comparison that links it.
library() {
    bash tests/install.sh
    rustc --edition 2021 -O tests/compare.rs -L target/staticlib -o target/compare
}

programs() {
    bash tests/frame.sh
    bash tests/smoothness.sh
    bash tests/deadlines.sh
    rustc --edition 2021 -O tests/plan_files.rs -o target/plan_files
    target/plan_files
    bash tests/sheet.sh
    rustc --edition 2021 -O tests/sheets.rs -o target/sheets
    target/sheets
    rustc --edition 2021 -O --test tests/selftest.rs -o target/selftest
    target/selftest
}

bash tests/tools.sh
mkdir -p target
trap 'kill "${beside:-}" 2>/dev/null || true' EXIT

# Of two calls of rt the second would wait for the crates that both use.
bash build.sh frame sheet smoothness deadlines
beside library library
programs
joined

bash tests/c.sh
target/compare "$slots" "$seed"
