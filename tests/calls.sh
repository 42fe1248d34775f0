#!/bin/sh
# The program vectors from outside: the README's script writes what README says, any bytes at all are read to their end,
# and a write that fails ends the program and is said.

set -eu
cd "$(dirname "$0")/.."
. tests/proved.sh

mkdir -p target/tests
awk '/^```sh$/ { on = 1; next } /^```$/ { on = 0 } on' README.md >target/tests/floor.sh
awk '/^That script writes:$/ { on = 1; next } on && /^    / { print substr($0, 5); seen = 1; next } seen { exit }' README.md >target/tests/floor.txt
test -s target/tests/floor.txt
sh -eu target/tests/floor.sh | diff target/tests/floor.txt -
echo "the README's script writes what README says"

head -c 1000000 /dev/urandom >target/tests/any-bytes
"$vectors" <target/tests/any-bytes >target/tests/any-bytes.out
lines=$(tr -cd '\n' <target/tests/any-bytes | wc -c)
written=$(tr -cd '\n' <target/tests/any-bytes.out | wc -c)
[ "$written" -ge "$lines" ]
[ "$written" -le $((lines + 1)) ]
echo "1000000 random bytes: a line for each of theirs, and status 0"

echo show | "$vectors" 2>target/tests/full.out >/dev/full
grep -qx 'vectors: standard output cannot be written' target/tests/full.out
echo "a write that fails ends the program and is said; random bytes are read to their end; the README's script writes what it should"
