#!/bin/sh
# Builds the C programs of the README, its first, its third and its fourth C code, as they stand there, once with the archive and once against what
# `make install` puts in place, and compares what they write with what the README says; the README's stories with what the program replay must write;
# and the README's Rattle code with the program example, which the gate proves and runs:
#   tests/readme.sh [ARCHIVE]

set -eu
. "$(dirname "$0")/place.sh"
. tests/tools.sh

mkdir -p target/tests

# Takes a program out of the README by the number of its C code, and what it writes by the number of "It writes:".
take() { # NAME CODE TEXT
    awk -v code="$2" '/^```c$/ { on = ++blocks == code; next } /^```$/ { on = 0 } on' README.md >"target/tests/$1.c"
    awk -v text="$3" '/^It writes:$/ { on = ++texts == text; next } on && /^    / { print substr($0, 5); seen = 1; next } seen { exit }' README.md >"target/tests/$1.txt"
    test -s "target/tests/$1.txt"
}

take readme 1 1
take readme_segments 3 2
take readme_lists 4 3

# Builds them with the flags given, runs them and compares.
try() {
    for name in readme readme_segments readme_lists; do
        # The flags are lists of words.
        # shellcheck disable=SC2086
        $CC $CFLAGS -o "target/tests/$name" "target/tests/$name.c" "$@" $LDFLAGS
        $RUN "target/tests/$name" >"target/tests/$name.out"
        cat "target/tests/$name.out"
        cmp "target/tests/$name.txt" "target/tests/$name.out"
    done
}

try -Iinclude "$archive"

packaging/install.sh "$root/target/tests/installed" "$archive"
PKG_CONFIG_LIBDIR=$root/target/tests/installed/lib/pkgconfig
export PKG_CONFIG_LIBDIR
# shellcheck disable=SC2046
try $(pkg-config --cflags --libs jeczmilot)

rm -f target/tests/story.*
awk '/^```/ { on = !on; plain = $0 == "```"; if (on && plain) story++; next } on && plain { print >("target/tests/story." story) }' README.md
test -s target/tests/story.1
for story in target/tests/story.*; do
    case $(cat crates/replay/stdout) in
    *"$(cat "$story")"*) ;;
    *) echo "the README's $story is not in crates/replay/stdout:" && cat "$story" && exit 1 ;;
    esac
done
echo "the README's stories are of what the program replay writes"

awk '/^```rust$/ { on = 1; next } /^```$/ { on = 0 } on' README.md >target/tests/readme.code
awk '/^\/\/ The key that both sides have/ { on = 1 } /^\/\/ Prints/ { exit } on' crates/example/src/main.rt | sed '$d' >target/tests/example.code
test -s target/tests/example.code
diff target/tests/readme.code target/tests/example.code
case $(cat README.md) in
*"
$(sed 's/^/    /' crates/example/stdout)
"*) echo "the README's Rattle code is that of the program example, and so is what it writes" ;;
*) echo "what the program example writes is not in README.md" && exit 1 ;;
esac
