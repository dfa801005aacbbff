#!/usr/bin/env bash
# Holds the printout of the program `deadlines`, and the table in the multiplexer's code, to the stored printout, number by
# number, and that to the rule; then runs the program on outputs that fail. Usage: tests/deadlines.sh [PROGRAM], by default
# target/bin/deadlines, which 'bash build.sh deadlines' builds.
set -euo pipefail
cd "$(dirname "$0")/.."
. tests/programs.sh
program=${1:-target/bin/deadlines}
stored=crates/deadlines/stdout
code=crates/multiplexer/src/deadlines.rt

# by_rule: the least d with d × a of at least s × 64, found without a division.
by_rule() {
    local a s d
    for ((a = 1; a <= 64; a++)); do
        for ((s = 1, d = 0; s <= a; s++)); do
            while ((d * a < s * 64)); do d=$((d + 1)); done
            echo "$d"
        done
    done
}

# constants: the numbers of the code's constants, in the order in which they stand there. A constant is any text from 'const'
# to ';'.
constants() {
    sed -n '/^const /,/;$/p' "$code" | sed 's/^const .*=//' | grep -o '[0-9]\+'
}

[ -x "$program" ] || fail "no program '$program': 'bash build.sh deadlines' builds it"
same "the program" cat "$stored" </dev/null
program=constants same "the table in $code" cat "$stored" </dev/null
program=by_rule same "the rule" cat "$stored" </dev/null
count=$(wc -l <"$stored")
[ "$count" -eq 2080 ] || fail "$stored has $count lines, not 2,080"

says "a full output" "standard output" "$("$program" 2>&1 >/dev/full)"
says "a closed output" "standard output" "$("$program" 2>&1 >&-)"

echo "tests/deadlines.sh: the table in the code is the stored printout, $count numbers by the rule, and failures said"
