#!/bin/sh
# Has the program pace, proved and built where it is not yet, measure a session beside one call, and judges each line:
#   tests/pace.sh
# Ends with status 1 where a body in pieces costs more than 1.05 times one call.

set -eu
cd "$(dirname "$0")/.."

# Prints width, rounds, work, both times and their ratio; fails where the bound is not kept.
judge() {
    awk -v bound=1.05 -v width="$1" -v rounds="$2" -v work="$3" -v one_call="$4" -v pieces="$5" 'BEGIN {
        ratio = one_call > 0 ? pieces / one_call : 0
        kept = ratio > 0 && ratio <= bound
        printf "%5d %6d  %-5s %9d %8d %6.3f  %.2f %s\n", width, rounds, work, one_call, pieces, ratio, bound, kept ? "kept" : "NOT kept"
        exit !kept
    }'
}

echo
echo "1 MiB through a session in pieces of 64 KiB, beside one call: microseconds of processor time, the best of many turns"
echo "width rounds  work   one call   pieces  ratio  bound"
mkdir -p target/log
(cd crates/pace && rt run -- measure 2>../../target/log/rt-run.out) | {
    lines=0
    broken=0
    while read -r width rounds work one_call pieces; do
        judge "$width" "$rounds" "$work" "$one_call" "$pieces" || broken=1
        lines=$((lines + 1))
    done
    if [ "$lines" -ne 8 ]; then
        echo "$0: the program measured $lines lines of 8; target/log/rt-run.out has what the checker said" >&2
        exit 1
    fi
    exit "$broken"
}
