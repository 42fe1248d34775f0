#!/bin/sh
# Runs rt, and tells of each crate, edit and run of a program in one line, with the seconds so far and how many are left:
#   tests/progress.sh all | ci | check NAME | lib NAME
# All that rt says is kept in target/log/rt-COMMAND.out. Where something fails it is shown; with V=1 all of it is, as it comes.

set -eu
command=${1:?"usage: tests/progress.sh all | ci | check NAME | lib NAME"}
name=${2-}
cd "$(dirname "$0")/.."
. tests/tell.sh
. tests/progress/plan.sh
. tests/progress/follow.sh

log=target/log/rt-$command.out
mkdir -p target/log
work=$(mktemp -d)
notes=$work/notes
touch "$notes"
trap 'rm -r "$work"' EXIT
trap 'exit 130' INT
trap 'exit 143' HUP TERM

crates=0
edits=0
runs=0
for crate in $(crates_listed); do
    crates=$((crates + 1))
    edits=$((edits + $(edits_of "$crate")))
    runs=$((runs + $(runs_of "$crate")))
done
left=$((crates + edits + runs))

many() { # NUMBER NOUN
    if [ "$1" -eq 1 ]; then echo "1 $2"; else echo "$1 $2s"; fi
}

# What is proved already, rt passes over in silence where it does not go over all crates.
case $command in
all)
    task="Proving $(many $crates crate) and running $(many $runs program)"
    # A program may take as long as under rt ci.
    run() { RT_SECONDS=120 rt all test; }
    ;;
ci)
    task="Proving $(many $crates crate), trying $(many $edits edit) that must be refused, and running $(many $((runs / 2)) program) as two compilers build each"
    run() { rt ci; }
    ;;
check)
    task="Proving $name and what it uses"
    left=
    run() { cd "crates/$name" && rt check; }
    ;;
lib)
    task="Building the library $name and what it uses"
    left=
    # An archive can't ask which processor it is on, so it is compiled for every x86-64.
    run() { cd "crates/$name" && rt lib --cpu x86-64; }
    ;;
*)
    echo "$0: there is no command $command" >&2
    exit 1
    ;;
esac
echo "$task${MINUTES:+: about $MINUTES minutes from nothing}. V=1 shows all that the checker says; target/log has it."

shown=follow
[ "${V-}" != 1 ] || shown='cat'
began=$(date +%s)
{
    status=0
    (run) 2>&1 || status=$?
    echo "$status" >"$work/status"
} | tee "$log" | $shown

status=$(cat "$work/status")
[ "$status" -eq 0 ] || echo "rt ended with status $status; $log has all that it said."
exit "$status"
