#!/bin/sh
# Measures what jobs cost in runs of P and in time, shows it in tables and draws it:
#   tests/bench_runs.sh [ARCHIVE]
# The figures are in target/tests/figures.txt then, for tests/planning.sh.

set -eu
. "$(dirname "$0")/place.sh"
. tests/tools.sh

program=$root/target/tests/bench_runs
figures=target/tests/figures.txt

# What Linux says of the processor; an emulator's times are not its own.
processor() {
    if [ -n "$RUN" ]; then
        echo "$(uname -m), emulated by $RUN"
        return
    fi
    awk -F '[ \t]*: *' '
        !($1 in says) { says[$1] = $2 }
        END {
            printf "%s, family %s, model %s%s\n", says["model name"], says["cpu family"], says["model"],
                says["flags"] ~ /(^| )hypervisor( |$)/ ? ", virtual" : ""
        }' /proc/cpuinfo
}

mkdir -p target/tests
# The flags are lists of words.
# shellcheck disable=SC2086
$CC $CFLAGS -Iinclude -o "$program" tests/bench_runs.c "$archive" $LDFLAGS
echo "# $(processor), $(getconf _NPROCESSORS_ONLN) cores; $(date -u +%Y-%m-%d)" >"$figures"
$RUN "$program" >>"$figures"
tests/planning.sh "$figures"
