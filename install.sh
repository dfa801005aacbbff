#!/usr/bin/env bash
# Builds libgambyre.a and installs it below PREFIX with its header and a pkg-config file. Usage: bash install.sh PREFIX
# With DESTDIR set, all files go below that folder, and the pkg-config file still names PREFIX: so packages are made.
set -euo pipefail

if [ $# -ne 1 ] || [[ $1 == '' || $1 == -* ]]; then
    echo "use: bash install.sh PREFIX" >&2
    exit 2
fi
prefix=$(realpath -ms -- "$1")
root=${DESTDIR:+$(realpath -ms -- "$DESTDIR")}
if [[ $prefix == *[\"\'\\\$\#]* || $prefix == *$'\n'* ]]; then
    echo "install.sh: a pkg-config file can't name a folder with quotes, \\, \$, # or a line break in it: $prefix" >&2
    exit 2
fi

cd "$(dirname "$0")"
bash build.sh gambyre

version=$(sed -n 's/^#define GAMBYRE_VERSION "\(.*\)"$/\1/p' include/gambyre.h)
cat >target/gambyre.pc <<END
prefix=$prefix
includedir=\${prefix}/include
libdir=\${prefix}/lib

Name: gambyre
Description: the verified cell switch of a digital label press
Version: $version
Cflags: -I"\${includedir}"
Libs: -L"\${libdir}" -lgambyre
END

install -D -m 644 include/gambyre.h "$root$prefix/include/gambyre.h"
install -D -m 644 target/staticlib/libgambyre.a "$root$prefix/lib/libgambyre.a"
install -D -m 644 target/gambyre.pc "$root$prefix/lib/pkgconfig/gambyre.pc"
echo "gambyre $version is installed in $root$prefix"
