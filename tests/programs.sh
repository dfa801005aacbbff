# What the tests of the programs share. tests/frame.sh, tests/smoothness.sh, tests/sheet.sh and tests/deadlines.sh read it in;
# the program that a script tests is in `program`.

fail() {
    echo "tests/${0##*/}: $*" >&2
    exit 1
}

# same NAME COMMAND..: of standard input the program prints what the command prints, and says nothing on standard error. The
# dumps tell any two outputs apart.
same() {
    local name=$1 printed expected
    shift
    printed=$("$program" 2>&1 | od -A d -v -c) || fail "$name: the program failed"
    expected=$("$@" | od -A d -v -c) || fail "$name: there is no expected printout"
    [ "$printed" = "$expected" ] && return
    comm -3 --nocheck-order <(echo "$printed") <(echo "$expected") 2>&1 | head -n 6 >&2 || true
    fail "$name: not the expected printout; above are places where it differs, further right as expected"
}

# says NAME WHAT TEXT: the text, which the program wrote on standard error, is one line that names what failed, and says why.
says() {
    local name=$1 what=$2 text=$3
    [[ $text == "$what: "?* && $text != *$'\n'* ]] || fail "$name: '$text' on standard error, not a line that begins '$what: '"
}

# failures FILE COMMAND..: the command says that the file's printout can't be written, and that there is nothing to read. In
# that case it prints nothing.
failures() {
    local file=$1
    shift
    says "a full output" "standard output" "$("$@" 2>&1 <"$file" >/dev/full)"
    says "a closed output" "standard output" "$("$@" 2>&1 <"$file" >&-)"
    says "a closed input" "standard input" "$("$@" 2>&1 <&- >/dev/null)"
    says "a directory as input" "standard input" "$("$@" 2>&1 </ >/dev/null)"
    [ -z "$("$@" 2>/dev/null <&-)" ] || fail "a closed input: the program prints something"
    [ -z "$("$@" 2>/dev/null </)" ] || fail "a directory as input: the program prints something"
}

# A file that comes through a pipe in two pieces.
in_pieces() {
    head -c 9 "$1"
    sleep 0.1
    tail -c +10 "$1"
}

# The slots of the longest frame, and the rate that each of 16 flows can have in it.
most_slots=1024
full_rate=$((most_slots / 16))

# word NUMBER: 16 bits, low byte first.
word() {
    printf "\\x$(printf %02x $(($1 % 256)))\\x$(printf %02x $(($1 / 256)))"
}

# The plan file of 16 ports and the longest frame in which every rate is full_rate, so that every line is full.
full_plan() {
    local flow
    printf 'LSP\001\000\020'
    word "$most_slots"
    for flow in {1..256}; do word "$full_rate"; done
}
