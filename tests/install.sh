#!/usr/bin/env bash
# install.sh, tried in target/: the example is built and run by pkg-config alone. Usage: tests/install.sh. It leaves
# target/staticlib/libgambyre.a, which the other tests link.
set -euo pipefail
cd "$(dirname "$0")/.."
printed=target/installed.txt

fail() {
    echo "tests/install.sh: $*" >&2
    exit 1
}

# by_pkg_config PREFIX: builds the example with what pkg-config says of the library in that folder, and runs it.
by_pkg_config() {
    local PKG_CONFIG_LIBDIR=$1/lib/pkgconfig PKG_CONFIG_PATH='' words
    export PKG_CONFIG_LIBDIR PKG_CONFIG_PATH
    [ "$(pkg-config --modversion gambyre)" = "$version" ] || fail "$1: not the header's version"
    words=$(pkg-config --cflags --libs gambyre)
    # pkg-config escapes its words for a shell.
    eval "gcc -std=c99 examples/label_press.c $words -o target/installed" || fail "$1: the example can't be built"
    target/installed >"$printed" || { cat "$printed"; fail "$1: the example failed"; }
    diff examples/label_press.txt "$printed" || fail "$1: the example prints something else"
}

# modes FOLDER: all its files may be read by everybody and written by their owner.
modes() {
    local file
    for file in include/gambyre.h lib/libgambyre.a lib/pkgconfig/gambyre.pc; do
        [ "$(stat -c %a "$1/$file")" = 644 ] || fail "$1/$file: not mode 644"
    done
}

version=$(sed -n 's/^#define GAMBYRE_VERSION "\(.*\)"$/\1/p' include/gambyre.h)
[ -n "$version" ] || fail "the header has no version"
rm -rf target/prefix "target/a prefix" target/stage target/no-rt

bash install.sh target/prefix
by_pkg_config "$PWD/target/prefix"
modes target/prefix

# rt goes over the proofs at each call. The archive is there now: further calls get an rt that does nothing.
mkdir -p target/no-rt
printf '#!/bin/sh\n' >target/no-rt/rt
chmod +x target/no-rt/rt
PATH=$PWD/target/no-rt:$PATH

bash install.sh target/prefix >/dev/null
by_pkg_config "$PWD/target/prefix"

(cd target && umask 077 && bash ../install.sh "a prefix" >/dev/null)
by_pkg_config "$PWD/target/a prefix"
modes "target/a prefix"

DESTDIR=target/stage bash install.sh /opt/gambyre >/dev/null
modes target/stage/opt/gambyre
grep -qx 'prefix=/opt/gambyre' target/stage/opt/gambyre/lib/pkgconfig/gambyre.pc || fail "DESTDIR is in the pkg-config file"

status=0
words=$(bash install.sh 2>&1) || status=$?
[ "$status" = 2 ] && [ "$words" = "use: bash install.sh PREFIX" ] || fail "no PREFIX: '$words', exit status $status"

echo "tests/install.sh: installed, and built the example by pkg-config alone"
