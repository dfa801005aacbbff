#!/usr/bin/env bash
# Runs the program `sheet` on every text of examples/, all of them of 3 boards and 15 slots, on the longest text and on longer
# ones, with right and wrong arguments, and on inputs and outputs that fail, and compares what it writes, byte by byte.
# Usage: tests/sheet.sh [PROGRAM], by default target/bin/sheet, which 'bash build.sh sheet' builds.
set -euo pipefail
cd "$(dirname "$0")/.."
. tests/programs.sh
program=${1:-target/bin/sheet}
out=target/texts

# runs NAME WRITTEN SAID ARGUMENT..: of the text on standard input the program writes the first file, and says the second on
# standard error.
runs() {
    local name=$1 written=$2 said=$3
    shift 3
    "$program" "$@" >"$out/written" 2>"$out/said" || fail "$name: the program failed"
    cmp "$out/said" "$said" >&2 || fail "$name: '$(cat "$out/said")' is not what is expected on standard error"
    cmp "$out/written" "$written" >&2 || fail "$name: not the expected plan file"
}

# accepted NAME FILE ARGUMENT..
accepted() {
    runs "$1" "$2" /dev/null "${@:3}"
}

# refused NAME NUMBER ARGUMENT..
refused() {
    runs "$1" /dev/null <(echo "refused $2") "${@:3}"
}

# misused ARGUMENT..: the program says how it is called, and leaves its input to the next one.
misused() {
    runs "misused '$*'" /dev/null <(echo "use: sheet N T <plan.csv >plan.lsp") "$@"
    cmp - examples/three_boards.csv >&2 || fail "misused '$*': the program reads its input"
}

# The plan with all lines full, as a text of 2,064 bytes.
longest() {
    local board field
    printf -v field '"%05d"' "$full_rate"
    for board in {0..15}; do
        printf "$field,%.0s" {1..15}
        printf '%s\r\n' "$field"
    done
}

[ -x "$program" ] || fail "no program '$program': 'bash build.sh sheet' builds it"
mkdir -p "$out"
shopt -s globstar nullglob
texts=(examples/**/*.csv)
[ ${#texts[@]} -gt 0 ] || fail "examples/ has no text"
for text in "${texts[@]}"; do
    case $text in
        */refused/*) runs "$text" /dev/null "${text%.csv}.txt" 3 15 <"$text" ;;
        *) runs "$text" "${text%.csv}.lsp" /dev/null 3 15 <"$text" ;;
    esac
done

# There is a refused text for each reason that README.md names.
for reason in header_line semicolons space byte_order_mark lf_alone empty_line row_too_many trailing_commas row_above_frame column_above_frame; do
    [ -e "examples/refused/$reason.csv" ] || fail "examples/refused/ has no $reason.csv"
done

text=examples/three_boards.csv
plan=examples/three_boards.lsp
in_pieces "$text" | accepted "a text in two pieces" "$plan" 3 15
refused "an empty text" 16 3 15 </dev/null

zeros=$(printf '0%.0s' {1..1000})
accepted "N = 03" "$plan" 03 15 <"$text"
accepted "T = 0015" "$plan" 3 0015 <"$text"
accepted "1,000 zeros before N and T" "$plan" "${zeros}3" "${zeros}15" <"$text"
# 10^1001 + 3, the last, agrees with 3 in more low bits than any type has; those before it in 8, 16, 32 and 64.
for n in 0 17 99999999999999999999 259 65539 4294967299 18446744073709551619 "1${zeros}3"; do
    refused "N = $n" 1 "$n" 15 <"$text"
done
for t in 0 $((most_slots + 1)) 99999999999999999999 65551 4294967311 18446744073709551631 "1${zeros}15"; do
    refused "T = $t" 2 3 "$t" <"$text"
done
refused "N and T out of range" 1 99999999999999999999 99999999999999999999 <"$text"

misused <"$text"
misused 3 <"$text"
misused 3 15 15 <"$text"
for word in '' x -1 +3 ' 3' '3 ' 3x 0x3 3.0 3,15 $'3\n' --help; do
    misused "$word" 15 <"$text"
    misused 3 "$word" <"$text"
done
misused 99 x <"$text"

longest >"$out/longest.csv"
[ "$(stat -c %s "$out/longest.csv")" -eq 2064 ] || fail "the longest text has not 2,064 bytes"
accepted "the longest text" <(full_plan) 16 "$most_slots" <"$out/longest.csv"
for byte in 0 , '"' ' ' $'\r' $'\n'; do
    printf '%s' "$byte" | cat "$out/longest.csv" - >"$out/longer.csv"
    refused "the longest text and $(printf %q "$byte")" 16 16 "$most_slots" <"$out/longer.csv"
done
head -c 4000000 /dev/zero | cat "$text" - >"$out/megabytes.csv"
refused "megabytes" 16 3 15 <"$out/megabytes.csv"

failures "$text" "$program" 3 15
refusal=$("$program" 3 15 2>&1 <examples/refused/lf_alone.csv >&-)
[ "$refusal" = "refused 16" ] || fail "a refusal and a closed output: '$refusal' on standard error"

echo "tests/sheet.sh: ${#texts[@]} example texts, longest text and arguments answered as expected, and failures said"
