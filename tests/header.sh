#!/bin/sh
# The header by itself: strict C takes it; an answer that is not looked at is refused where the warning is an error,
# and taken where the macro of that warning is empty; and the pkg-config file and README have the header's version.

set -eu
. "$(dirname "$0")/place.sh"
. tests/tools.sh

mkdir -p target/tests
cat >target/tests/unlooked.c <<'C'
#include "jeczmilot.h"
void unlooked(uint8_t *out);
void unlooked(uint8_t *out) {
    norx_seal(64, 4, out, 0, out, 0, out, 0, out, 0, out, 0, out, 0);
    norx_open(64, 4, out, 0, out, 0, out, 0, out, 0, out, 0, out, 0);
    norx_segment_seal(64, 4, out, 0, out, 0, 7, 12, out, 0, 0, 1, out, 0, out, 0);
    norx_segment_open(64, 4, out, 0, out, 0, 7, 12, out, 0, 0, 0, 1, out, 0, out, 0);
    norx_list_write(7, 12, 0, out, 0);
    norx_list_read(out, 0);
}
C

compiles() { # FLAGS..
    $CC -Wall -Wextra -Werror -Iinclude -c -o target/tests/header.o "$@" 2>target/tests/header.out
}

compiles -std=c99 -pedantic -x c include/jeczmilot.h || { cat target/tests/header.out; exit 1; }
compiles -std=c11 -pedantic -DJECZMILOT_LOOK_AT_THE_ANSWER= target/tests/unlooked.c || { cat target/tests/header.out; exit 1; }
if compiles -std=c11 target/tests/unlooked.c; then
    echo "an answer that is not looked at brings no warning"
    exit 1
fi
for call in norx_seal norx_open norx_segment_seal norx_segment_open norx_list_write norx_list_read; do
    grep -q "$call.*unused-result" target/tests/header.out || { echo "no warning of $call"; cat target/tests/header.out; exit 1; }
done

packaging/install.sh "$root/target/tests/versioned" "$archive" >target/tests/header.out
version=$(sed -n 's/^#define JECZMILOT_VERSION "\(.*\)"$/\1/p' include/jeczmilot.h)
if ! grep -qx "Version: ${version:?}" target/tests/versioned/lib/pkgconfig/jeczmilot.pc || ! grep -q "^Version $version\." README.md; then
    echo "the header's version is $version; that of the pkg-config file or of README is another"
    exit 1
fi
echo "version $version; an answer that is not looked at brings a warning"
