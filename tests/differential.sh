#!/bin/sh
# Builds the differential test with the archive and runs it:
#   tests/differential.sh [ARCHIVE] [--only NAME | --case NUMBER] [--seed NUMBER]

set -eu
. "$(dirname "$0")/place.sh"
. tests/tools.sh

program=$root/target/tests/differential
mkdir -p target/tests
# The flags are lists of words. With COUNT_RUNS the reference counts the runs of P.
# shellcheck disable=SC2086
$CC $CFLAGS -DCOUNT_RUNS -Iinclude -Itests/reference -o "$program" \
    tests/differential.c tests/differential/*.c tests/reference/*.c "$archive" $LDFLAGS
$RUN "$program" "$root/tests/vectors/norx-3.0.txt" --runner "$RUN" "$@"
