#!/bin/sh
# Shows what a proved program writes, by running it.
set -eu
cd "$(dirname "$0")/.."
echo
echo "What the program $1 writes:"
"crates/$1/out/$1"
