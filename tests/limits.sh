#!/bin/sh
# Runs the rows on limits with the archive and compares what they answer with limits.txt:
#   tests/limits.sh [ARCHIVE]

set -eu
. "$(dirname "$0")/place.sh"
. tests/tools.sh

program=$root/target/tests/limits
mkdir -p target/tests
# The flags are lists of words.
# shellcheck disable=SC2086
$CC $CFLAGS -Iinclude -o "$program" tests/limits.c "$archive" $LDFLAGS
$RUN "$program" >target/tests/limits.out
cat target/tests/limits.out
cmp tests/limits.txt target/tests/limits.out
echo "$(wc -l <tests/limits.txt) rows answer as tests/limits.txt says"
