#!/bin/sh
# Builds the benchmarks with the archive and runs them: the library beside the reference by gcc and by clang, lists too,
# segments beside one call, what jobs cost in runs of P, and how the round of P is compiled:
#   tests/bench.sh [ARCHIVE]

set -eu
. "$(dirname "$0")/place.sh"
. tests/tools.sh
need_gcc_and_clang

program=$root/target/tests/bench
compilations=
native=
mkdir -p target/tests

# Compiles the reference under names that begin with the compilation's, so that one program can have it several times.
add_compilation() { # NAME COMPILER..
    object=target/tests/reference_$1.o
    renamed=
    for name in seal_answer open_answer constants words runs; do
        renamed="$renamed -Dreference_$name=$1_$name"
    done
    shift
    # The flags are lists of words.
    # shellcheck disable=SC2086
    "$@" $CFLAGS $renamed -c -o "$object" tests/reference/norx.c
    compilations="$compilations $object"
}

# For plain x86-64, as the library is, and for the machine itself, which an emulator does not show.
# shellcheck disable=SC2086
add_compilations() {
    add_compilation gcc $GCC
    add_compilation clang $CLANG
    [ -z "$RUN" ] || return 0
    add_compilation gcc_native $GCC -march=native
    add_compilation clang_native $CLANG -march=native
    native=-DNATIVE
}

add_compilations
# shellcheck disable=SC2086
$CC $CFLAGS $native -Iinclude -Itests/reference -o "$program" tests/bench.c $compilations "$archive" $LDFLAGS
# shellcheck disable=SC2086
$CC $CFLAGS -pthread -Iinclude -Itests/reference -o "${program}_segments" \
    tests/bench_segments.c tests/reference/norx.c tests/reference/outcomes.c tests/reference/segments.c "$archive" $LDFLAGS
# shellcheck disable=SC2086
$CC $CFLAGS -Iinclude -Itests/reference -o "${program}_list" tests/bench_list.c tests/reference/lists.c "$archive" $LDFLAGS
echo "C by $($GCC --version | head -n 1), and by $($CLANG --version | head -n 1)"
$RUN "$program"
echo
$RUN "${program}_segments"
echo
$RUN "${program}_list"
echo
tests/bench_runs.sh "$archive"
echo
tests/round.sh "$archive"
