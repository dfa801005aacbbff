#!/usr/bin/env bash
# Runs the program `smoothness` on every plan file of examples/, on frames of few slots, on the largest plan and on inputs and
# outputs that fail, and compares what it prints, byte by byte. Usage: tests/smoothness.sh [PROGRAM], by default
# target/bin/smoothness, which 'bash build.sh smoothness' builds.
set -euo pipefail
cd "$(dirname "$0")/.."
. tests/programs.sh
program=${1:-target/bin/smoothness}

# lines LINE..: a printout with these lines behind the header.
lines() {
    echo "out in rate slots least promised most promised"
    [ $# -eq 0 ] || printf '%s\n' "$@"
}

# one_flow T RATE: the plan file of one port.
one_flow() {
    printf 'LSP\001\000\001'
    word "$1"
    word "$2"
}

# frame_of T RATE LINE..: what is printed for one flow, worked out by hand.
frame_of() {
    one_flow "$1" "$2" | same "T = $1, rate $2" lines "${@:3}"
}

# The printout of full_plan: each head serves board 0 to 15 in order, round after round, so that 16 slots have one service of
# each.
full_printout() {
    local out in slots rounds
    lines
    for out in {0..15}; do
        for in in {0..15}; do
            echo "$out $in $full_rate 1 0 0 1 1"
            for slots in $((most_slots / 4)) $((most_slots / 2)) "$most_slots"; do
                rounds=$((slots / 16))
                echo "$out $in $full_rate $slots $rounds $((rounds - 1)) $rounds $((rounds + 1))"
            done
        done
    done
}

[ -x "$program" ] || fail "no program '$program': 'bash build.sh smoothness' builds it"
shopt -s globstar nullglob
plans=(examples/**/*.lsp)
[ ${#plans[@]} -gt 0 ] || fail "examples/ has no plan file"
for plan in "${plans[@]}"; do
    case $plan in
        # The same line as the program `frame` prints.
        */refused/*) same "$plan" cat "${plan%.lsp}.txt" <"$plan" ;;
        *) same "$plan" cat "${plan%.lsp}.smoothness.txt" <"$plan" ;;
    esac
done
in_pieces examples/three_boards.lsp | same "a plan in two pieces" cat examples/three_boards.smoothness.txt

# A quarter and a half of a short frame are no slot, or as long as a length before.
frame_of 1 1 "0 0 1 1 1 1 1 1"
frame_of 2 1 "0 0 1 1 0 0 1 1" "0 0 1 2 1 0 1 2"
frame_of 2 2 "0 0 2 1 1 1 1 1" "0 0 2 2 2 2 2 2"
frame_of 3 2 "0 0 2 1 0 0 1 1" "0 0 2 3 2 1 2 3"
frame_of 4 1 "0 0 1 1 0 0 1 1" "0 0 1 2 0 0 1 2" "0 0 1 4 1 0 1 2"
frame_of 7 3 "0 0 3 1 0 0 1 1" "0 0 3 3 1 0 2 2" "0 0 3 7 3 2 3 4"
frame_of 8 8 "0 0 8 1 1 1 1 1" "0 0 8 2 2 2 2 2" "0 0 8 4 4 4 4 4" "0 0 8 8 8 8 8 8"
frame_of 8 0

full_plan | same "the plan with all lines full" full_printout
count=$(full_plan | "$program" | wc -l)
[ "$count" -eq 1025 ] || fail "the plan with all lines full: $count lines, not 1,025"
same "an empty file" echo "refused 15" </dev/null

failures examples/three_boards.lsp "$program"

echo "tests/smoothness.sh: ${#plans[@]} example plans, short frames and the largest plan printed as expected, and failures said"
