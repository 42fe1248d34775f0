#!/bin/sh
# One call and sessions, both ways: the program vectors checks in sessions what norx_seal sealed, and norx_open opens what its sessions sealed.
# The header of the one call is made by the function that README has for it:
#   tests/both_ways.sh [ARCHIVE]

set -eu
. "$(dirname "$0")/place.sh"
. tests/tools.sh
. tests/proved.sh

program=$root/target/tests/both_ways
mkdir -p target/tests
awk '/^```c$/ { on = ++blocks == 2; next } /^```$/ { on = 0 } on' README.md >target/tests/session_header.h
test -s target/tests/session_header.h
# The flags are lists of words.
# shellcheck disable=SC2086
$CC $CFLAGS -Iinclude -Itests/differential -Itarget/tests -o "$program" tests/both_ways.c "$archive" $LDFLAGS
$RUN "$program" ask >target/tests/both-ways-calls.txt
"$vectors" <target/tests/both-ways-calls.txt >target/tests/both-ways-written.txt
$RUN "$program" judge <target/tests/both-ways-written.txt
