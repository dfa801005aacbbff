#!/usr/bin/env bash
# Runs the program `frame` on every plan file of examples/, on the largest plan and on inputs and outputs that fail, and
# compares what it prints, byte by byte. Usage: tests/frame.sh [PROGRAM], by default target/bin/frame, which
# 'bash build.sh frame' builds.
set -euo pipefail
cd "$(dirname "$0")/.."
. tests/programs.sh
program=${1:-target/bin/frame}

# The printout of full_plan: all deadlines of a round of 16 slots are the same, so each port serves the others in order.
full_printout() {
    local slot
    printf slot
    printf ' in%d' {0..15}
    printf ' out%d' {0..15}
    printf '\n'
    for ((slot = 0; slot < most_slots; slot++)); do
        printf '%d' "$slot"
        printf " $((slot % 16))%.0s" {1..32}
        printf '\n'
    done
}

[ -x "$program" ] || fail "no program '$program': 'bash build.sh frame' builds it"
shopt -s globstar nullglob
plans=(examples/**/*.lsp)
[ ${#plans[@]} -gt 0 ] || fail "examples/ has no plan file"
for plan in "${plans[@]}"; do
    same "$plan" cat "${plan%.lsp}.txt" <"$plan"
done
# There is a refused plan file for each number that a file can get.
numbers=$(for plan in examples/refused/*.lsp; do cat "${plan%.lsp}.txt"; done | sed -n 's/^refused //p' | sort -nu | tr '\n' ' ')
[ "$numbers" = "1 2 4 5 14 15 " ] || fail "examples/refused/ has files for these numbers: $numbers"
in_pieces examples/three_boards.lsp | same "a plan in two pieces" cat examples/three_boards.txt

full_plan | same "the plan with all lines full" full_printout
lines=$(full_plan | "$program" | wc -l)
[ "$lines" -eq $((most_slots + 1)) ] || fail "the plan with all lines full: $lines lines, not $((most_slots + 1))"
same "an empty file" echo "refused 15" </dev/null

failures examples/three_boards.lsp "$program"

echo "tests/frame.sh: ${#plans[@]} example plans and the largest plan printed as expected, and failures said"
