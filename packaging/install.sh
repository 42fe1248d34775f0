#!/bin/sh
# Puts the archive, its header and a pkg-config file below PREFIX (below DESTDIR first, where that is set):
#   packaging/install.sh PREFIX [ARCHIVE]

set -eu
prefix=${1:?"usage: packaging/install.sh PREFIX [ARCHIVE]"}
here=$(cd "$(dirname "$0")/.." && pwd)
archive=${2-$here/target/staticlib/libjeczmilot.a}
to=${DESTDIR-}$prefix

mkdir -p "$to/lib/pkgconfig" "$to/include"
cp "$archive" "$to/lib/libjeczmilot.a"
cp "$here/include/jeczmilot.h" "$to/include/jeczmilot.h"
version=$(sed -n 's/^#define JECZMILOT_VERSION "\(.*\)"$/\1/p' "$here/include/jeczmilot.h")
awk -v prefix="$prefix" -v version="$version" '
    function with(line, word, value,    at) {
        at = index(line, word)
        return at ? substr(line, 1, at - 1) value substr(line, at + length(word)) : line
    }
    { print with(with($0, "@PREFIX@", prefix), "@VERSION@", version) }' \
    "$here/packaging/jeczmilot.pc.in" >"$to/lib/pkgconfig/jeczmilot.pc"
chmod 644 "$to/lib/libjeczmilot.a" "$to/include/jeczmilot.h" "$to/lib/pkgconfig/jeczmilot.pc"
echo "installed below $to: lib/libjeczmilot.a, include/jeczmilot.h, lib/pkgconfig/jeczmilot.pc"
