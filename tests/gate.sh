#!/bin/sh
# The merge gate: rt ci, which proves everything, then the tests outside the proof on what it built.
# The closing line adds up the numbers that each of the two closes with, in its log; a run that fails, or that ends without
# its numbers, counts as one failure more.

set -eu
cd "$(dirname "$0")/.."

passed=0
failed=0
numbers='^[0-9][0-9]* passed, [0-9][0-9]* failed$'

# Runs a command that leaves its log in a file, and adds up the numbers at the end of that file.
count() { # LOG COMMAND..
    log=$1
    shift
    mkdir -p "$(dirname "$log")"
    : >"$log"
    status=0
    "$@" || status=$?
    last=$(grep "$numbers" "$log" | tail -n 1) || true
    ok=${last%% passed*}
    bad=${last##*, }
    bad=${bad%% failed}
    if [ -z "$last" ] || { [ "$status" -ne 0 ] && [ "$bad" -eq 0 ]; }; then
        echo "$* ended with status $status, and the closing line of $log is ${last:-not there}"
        bad=$((${bad:-0} + 1))
    fi
    passed=$((passed + ${ok:-0}))
    failed=$((failed + bad))
}

# An edit that is bad shows nothing of a contract, and rt ci passes all the same; here it is a failure.
count_bad_edits() { # LOG
    bad=$(sed -n 's/^rt: ok;.* must-fail edits: [^;]*, \([0-9][0-9]*\) bad;.*/\1/p' "$1")
    [ -z "$bad" ] || echo "must-fail edits that are bad: $bad; $1 says which"
    failed=$((failed + ${bad:-0}))
}

# What the tests outside the proof need is looked for first, so that nobody waits for the proof to hear that it is missing.
tests/tools.sh
count target/log/rt-ci.out tests/progress.sh ci
count_bad_edits target/log/rt-ci.out
echo
count target/log/outside.out tests/outside.sh
echo
echo "$passed passed, $failed failed"
[ "$failed" -eq 0 ]
