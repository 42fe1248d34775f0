#!/bin/sh
# Builds the C library and puts it where C builds look for it. The archive is named for the library, and not for the crate that exports it.

set -eu
cd "$(dirname "$0")/.."
tests/progress.sh lib jeczmilot_c
mkdir -p target/staticlib
cp crates/jeczmilot_c/out/libjeczmilot_c.a target/staticlib/libjeczmilot.a
echo "target/staticlib/libjeczmilot.a has the functions of jeczmilot_c"
