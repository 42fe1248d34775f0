#!/bin/sh
# Builds the model of sessions, segments and lists and holds to it the committed data of the program vectors, and then
# the proved program itself, on scripts made from a seed:
#   tests/sessions.sh [--seed NUMBER] [--script NUMBER]
#   tests/sessions.sh --say     answers the calls of standard input by the model alone

set -eu
cd "$(dirname "$0")/.."
. tests/tools.sh

mkdir -p target/tests
# The model links nothing of the library, so it is compiled for the host's own processor. The flags are a list of words.
# With COUNT_RUNS the reference counts the runs of P.
# shellcheck disable=SC2086
cc $CFLAGS -DCOUNT_RUNS -Itests/reference -Itests/differential -o target/tests/sessions \
    tests/sessions.c tests/sessions/*.c tests/reference/norx.c tests/reference/outcomes.c
if [ "${1-}" = --say ]; then
    exec target/tests/sessions --say
fi
. tests/proved.sh
target/tests/sessions "$vectors" "$@"
