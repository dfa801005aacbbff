#!/usr/bin/env bash
# Looks for all that the tests need, and lists what is missing with the Debian package that has it. Usage: tests/tools.sh;
# exits with 1 if something is missing.
set -euo pipefail
cd "$(dirname "$0")/.."

missing=()

has() {
    command -v "$1" >/dev/null
}

# need SOURCE PROGRAM..
need() {
    local source=$1 program
    shift
    for program in "$@"; do
        has "$program" || missing+=("$program ($source)")
    done
}

need "the Rattle kit, which is no Debian package; see README.md" rt
need "package gcc" gcc
need "package g++" g++
need "package rustc of Debian 13, or rustup.rs" rustc
need "package pkg-config" pkg-config
need "package binutils" nm
need "package mawk" awk
need "package sed" sed
need "package grep" grep
need "package diffutils" diff cmp
need "package findutils" find
need "package coreutils" cat chmod comm cp date head install mkdir mktemp od readlink realpath rm sha256sum sleep sort stat \
    tail tee tr wc

# The oldest rustc that has all that the tests use is 1.73.
if has rustc && ! [[ $(rustc --version) =~ ^rustc\ 1\.(7[3-9]|[89][0-9]|[1-9][0-9][0-9]) ]]; then
    missing+=("rustc 1.73 or newer (package rustc of Debian 13, or rustup.rs); this one is $(rustc --version)")
fi

# links COMPILER FLAG..: whether an empty program can be built.
links() {
    mkdir -p target
    echo '#include <stdio.h>
int main(void) { return 0; }' | "$@" -x c - -o target/tools >/dev/null 2>&1
}

if has gcc && has mkdir; then
    if ! links gcc; then
        missing+=("the C library's headers (package libc6-dev)")
    elif ! links gcc -fsanitize=address,undefined; then
        missing+=("gcc's sanitizers (package libgcc-$(gcc -dumpversion)-dev)")
    fi
fi

if [ ${#missing[@]} -gt 0 ]; then
    echo "tests/tools.sh: missing:" >&2
    printf '  %s\n' "${missing[@]}" >&2
    exit 1
fi

for compiler in clang clang++; do
    has "$compiler" || echo "tests/tools.sh: no $compiler (package clang), so nothing is built with it"
done
