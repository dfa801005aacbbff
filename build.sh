#!/usr/bin/env bash
# Proves crates and what they use, and builds them: a program becomes target/bin/NAME, a static library
# target/staticlib/libNAME.a. Usage: bash build.sh NAME..
set -euo pipefail

fail() {
    echo "build.sh: $*" >&2
    exit 1
}

if [ $# -eq 0 ] || [[ $1 == '' || $1 == -* ]]; then
    echo "use: bash build.sh NAME.." >&2
    exit 2
fi
command -v rt >/dev/null || fail "no 'rt', the command of the Rattle kit; README.md says more"

cd "$(dirname "$0")"
mkdir -p target/bin target/staticlib

# in_crate NAME COMMAND..: runs the command in the crate's folder, and shows what it said only if it fails.
in_crate() {
    local name=$1
    shift
    (cd "crates/$name" && "$@") </dev/null >"target/$name.log" 2>&1 || { cat "target/$name.log" >&2; exit 1; }
}

for name in "$@"; do
    if [ -e "crates/$name/src/main.rt" ]; then
        # rt runs what it has built, here once with nothing to read.
        in_crate "$name" rt run
        cp "crates/$name/out/$name" target/bin/
    elif grep -q "^$name staticlib\b" crates.txt; then
        # For every x86-64 processor; by itself rt builds for newer ones.
        in_crate "$name" rt lib --cpu x86-64
        cp "crates/$name/out/lib$name.a" target/staticlib/
    else
        fail "no program and no static library '$name'"
    fi
done
