#!/usr/bin/env bash
# The header, the examples and tests/header.c in C and C++, with gcc, and with clang where it is: the header compiles alone
# in each version of the languages, each example prints what is stored, and tests/header.c finds no difference; once more
# with the address and undefined-behaviour sanitizers. The archive needs no name from outside but memcpy and memset.
# Usage: tests/c.sh, after 'bash build.sh gambyre'.
set -euo pipefail
cd "$(dirname "$0")/.."
archive=target/staticlib/libgambyre.a
out=target/c
examples=(examples/label_press examples/periods examples/meter)
flags=(-Wall -Wextra -Wpedantic -Werror -I include)

fail() {
    echo "tests/c.sh: $*" >&2
    exit 1
}

# alone COMPILER LANGUAGE STANDARD..: the header with nothing before it, and the offsets that its comments say.
alone() {
    local compiler=$1 language=$2 standard
    shift 2
    for standard in "$@"; do
        "$compiler" "-std=$standard" "${flags[@]}" -fsyntax-only -x "$language" "$out/offsets.c" ||
            fail "the header as $standard by $compiler"
    done
}

# hosts COMPILER LANGUAGE STANDARD FLAG..: builds and runs the examples and tests/header.c.
hosts() {
    local compiler=$1 language=$2 standard=$3 source program
    shift 3
    for source in "${examples[@]}" tests/header; do
        program=$out/${source##*/}
        "$compiler" "-std=$standard" "${flags[@]}" "$@" -x "$language" "$source.c" -x none "$archive" -o "$program" ||
            fail "$source.c as $standard by $compiler $*"
        "$program" >"$program.txt" || { cat "$program.txt"; fail "$source.c as $standard by $compiler $*"; }
    done
    for source in "${examples[@]}"; do
        diff "$source.txt" "$out/${source##*/}.txt" || fail "the printout of $source.c as $standard by $compiler $*"
    done
    [ "$(tail -n 1 "$out/header.txt")" = "$lists lists were NULL" ] || fail "the header has $lists lists: $(tail -n 1 "$out/header.txt")"
}

# stops TEXT FLAG..: gcc refuses the program on standard input, and says the text.
stops() {
    local text=$1
    shift
    if gcc -std=c99 "${flags[@]}" "$@" -c -x c - -o "$out/stops.o" >"$out/stops.log" 2>&1; then
        fail "'$text' is not said of a program that breaks it"
    fi
    grep -q -- "$text" "$out/stops.log" || { cat "$out/stops.log"; fail "'$text' is not what the compiler says"; }
}

[ -e "$archive" ] || fail "no archive: 'bash build.sh gambyre' builds it"
mkdir -p "$out"

# So README and the header say.
outside=$(nm -u "$archive" | awk '$1 == "U" { print $2 }' | sort -u | tr '\n' ' ')
[ "$outside" = "memcpy memset " ] || fail "the archive needs from outside: $outside"

# Each field's comment in the header begins with the field's offset.
awk '
    BEGIN { print "#include \"gambyre.h\"" }
    /^typedef struct / { type = $3; next }
    /^}/ { type = "" }
    type != "" {
        split($0, part, ";")
        sub(/\[.*/, "", part[1])
        field = word[split(part[1], word, " ")]
        if (part[2] !~ /^ +\/\* +[0-9]+ /) { print "no offset in the header: " $0 > "/dev/stderr"; exit 1 }
        split(part[2], comment, " ")
        printf "typedef char offset_of_%s_%s", type, field
        printf "[offsetof(%s, %s) == %s ? 1 : -1];\n", type, field, comment[2]
        fields++
    }
    END { if (fields == 0) exit 1 }
' include/gambyre.h >"$out/offsets.c" || fail "the offsets can't be read from the header"

# The list parameters of all calls: each has its length behind it.
lists=$(grep -o '\bsize_t [a-z]*_len\b' include/gambyre.h | wc -l)

alone gcc c c99 c11 c17
alone g++ c++ c++11 c++17
hosts gcc c c99 -O2
hosts g++ c++ c++11 -O2
hosts gcc c c99 -O1 -g -fsanitize=address,undefined -fno-sanitize-recover=all
compilers="gcc, g++"
if command -v clang >/dev/null; then
    alone clang c c99 c11 c17
    hosts clang c c99 -O2
    compilers+=", clang"
fi
if command -v clang++ >/dev/null; then
    alone clang++ c++ c++11 c++17
    hosts clang++ c++ c++11 -O2
    compilers+=", clang++"
fi

header='#include "gambyre.h"'
for platform in -m32 -mx32 -U__linux__; do
    stops "built for x86-64 Linux" "$platform" <<<"$header"
done
stops "gambyre_verdict_has_size" -fshort-enums <<<"$header"
stops "ignoring return value" <<<"$header
void drop(void);
void drop(void) { gambyre_accept(1, 1, NULL, 0); }"
stops "not handled in switch" <<<"$header
int refused(gambyre_verdict verdict);
int refused(gambyre_verdict verdict) { switch (verdict) { case GAMBYRE_ACCEPTED: return 0; } return 1; }"

echo "tests/c.sh: header, examples and tests/header.c as C99 and C++11 by $compilers, and with the sanitizers"
