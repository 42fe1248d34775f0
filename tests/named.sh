#!/bin/sh
# Every crate of crates.txt is named in the drawing of the layers, as picture and as text, and in README's table of folders;
# and no name there is of a crate that is gone. The same of the must-fail edits and their table in CONTRACTS.md.

set -eu
cd "$(dirname "$0")/.."

sorted_names() {
    grep -Eo '[a-z0-9_]+' | sort -u
}

# Behind a name crates.txt may say that it is of a static library.
listed=$(sed -e 's/#.*//' -n -e 's/^\([a-z0-9_]*\).*:.*/\1/p' crates.txt | sorted_names)
drawn=$(sed -n 's/.*class="name"[^>]*>\([a-z0-9_]*\)<.*/\1/p' docs/layers.svg | sorted_names)
written=$(awk '/^```/ { on = !on; if (!on) exit; next } on' docs/ARCHITECTURE.md | cut -c18- |
    awk -F '  +' 'NF { print $1 }' | sorted_names)
tabled=$(sed -n 's/^| \(`crates[^|]*\)|.*/\1/p' README.md | sed 's/crates\///g' | sorted_names)

for place in drawn written tabled; do
    eval "names=\$$place"
    if [ "$names" != "$listed" ]; then
        echo "crates.txt and what is $place differ in:"
        printf '%s\n%s\n' "$listed" "$names" | sort | uniq -u
        exit 1
    fi
done
echo "$(echo "$listed" | wc -l) crates, each in the pictures and in README's table"

edits=$(ls crates/*/must-fail/*.edit | sed 's/^crates\/\(.*\)\/must-fail\/\(.*\)\.edit$/\1\/\2/' | sort)
rows=$(sed -n 's/^| `\([a-z0-9_]*\/[a-z0-9_]*\)` |.*/\1/p' docs/CONTRACTS.md | sort)
if [ "$edits" != "$rows" ]; then
    echo "the edits and their table in docs/CONTRACTS.md differ in:"
    printf '%s\n%s\n' "$edits" "$rows" | sort | uniq -u
    exit 1
fi
cited=$(grep -Eo '\(`[a-z0-9_]*`\)|`[a-z0-9_]+/[a-z0-9_]+`' docs/CONTRACTS.md | tr -d '()`' | grep _ | sort -u)
# Definitions and lemmas stand in brackets too.
defined=$(cat crates/*/specs/*.antt crates/*/proofs/*.antt | grep -Eo '^ *((abbrev|opaque|unfoldable|pub) )*[a-z0-9_]+ :' | sed 's/ :$//; s/.* //')
known=$(printf '%s\n%s\n' "$edits" "$defined" | sed 's/\(.*\)\/\(.*\)/\1\/\2\n\2/' | sort -u)
gone=$(printf '%s\n%s\n%s\n' "$known" "$known" "$cited" | sort | uniq -u)
if [ -n "$gone" ]; then
    echo "docs/CONTRACTS.md cites edits, definitions or lemmas that are not there:"
    echo "$gone"
    exit 1
fi
echo "$(echo "$edits" | wc -l) must-fail edits, each with its row"
