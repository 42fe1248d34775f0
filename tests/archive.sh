#!/bin/sh
# Checks that the archive exports the seven calls of the header and needs memcpy and memset, and nothing else either way:
#   tests/archive.sh [ARCHIVE]

set -eu
. "$(dirname "$0")/place.sh"
. tests/tools.sh

listing=$($NM --extern-only --defined-only --format=posix "$archive")

# A symbol's line begins with name and type; the line that names a member of the archive ends in a colon.
symbols=$(echo "$listing" | awk '!/:$/ && NF >= 2 { print $2, $1 }' | sort -u)
names=$(echo "$symbols" | awk '{ print $2 }' | sort -u)
calls='norx_list_length norx_list_read norx_list_write norx_open norx_seal norx_segment_open norx_segment_seal'
expected=$(echo "$calls" | tr ' ' '\n')

echo "global symbols defined in $archive:"
echo "$symbols" | sed 's/^/  /'
if [ "$names" != "$expected" ]; then
    echo "expected are $calls and nothing else" >&2
    exit 1
fi
needed=$($NM --undefined-only --format=posix "$archive" | awk '!/:$/ { print $1 }' | sort -u)
if [ "$needed" != "$(printf 'memcpy\nmemset')" ]; then
    echo "it needs $(echo $needed), and not memcpy and memset alone" >&2
    exit 1
fi
echo "only $calls are exported, and only memcpy and memset are needed"
