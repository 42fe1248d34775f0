#!/bin/sh
# Says how the round of P is compiled in the archive, at each width:
#   tests/round.sh [ARCHIVE]
# Ends with status 1 where no loop is found that could be it.

set -eu
. "$(dirname "$0")/place.sh"
. tests/tools.sh

$OBJDUMP --disassemble --no-show-raw-insn "$archive" | awk -f tests/round.awk
