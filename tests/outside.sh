#!/bin/sh
# The tests outside the proof, on the library that rt has proved: a line for each, and the numbers at the end and in target/log/outside.out.
# What a test says is kept in target/log/outside-NAME.out. Its last line is shown; where it fails, or with V=1, all of it.

set -eu
cd "$(dirname "$0")/.."
. tests/tell.sh

passed=0
failed=0
left=$(grep -c '^try ' tests/outside.sh)
mkdir -p target/log

# On a terminal, the last line of a test's log stands below the last test while it is at work.
follow_log() { # LOG
    while sleep 1; do
        printf '%s    %.70s' "$clear" "$(tail -n 1 "$1" 2>/dev/null)"
    done
}

try() { # WHAT NAME COMMAND..
    what=$1
    log=target/log/outside-$2.out
    shift 2
    began=$(date +%s)
    status=0
    follower=
    if [ -t 1 ]; then
        clear=$(printf '\r\033[K')
        follow_log "$log" &
        follower=$!
    fi
    "$@" >"$log" 2>&1 || status=$?
    [ -z "$follower" ] || kill "$follower"
    took="$(($(date +%s) - began)) s"
    left=$((left - 1))
    if [ "$status" -ne 0 ]; then
        failed=$((failed + 1))
        tell "$what" FAILED "$took" "$left"
        echo "    $* ended with status $status; all that it said is in $log"
        cat "$log"
    else
        passed=$((passed + 1))
        tell "$what" passed "$took" "$left"
        if [ "${V-}" = 1 ]; then cat "$log"; else tail -n 1 "$log" | sed 's/^/    /'; fi
    fi
}

echo "$left tests outside the proof. V=1 shows all that they say; target/log/outside-*.out has it."
try "every crate and edit in the docs" named tests/named.sh
try "the planning page and its figures" planning tests/planning.sh --check
try "the C library" library tests/library.sh
try "what the archive exports" archive tests/archive.sh
try "the header by itself" header tests/header.sh
try "the rows on limits" limits tests/limits.sh
try "the README's programs and story" readme tests/readme.sh
try "beside an independent C code" differential tests/differential.sh
try "calls from any program" calls tests/calls.sh
try "sessions beside a model in C" sessions tests/sessions.sh
try "one call and sessions, both ways" both_ways tests/both_ways.sh
echo "outside the proof: $passed passed, $failed failed"
echo "$passed passed, $failed failed" >target/log/outside.out
[ "$failed" -eq 0 ]
