# Sourced by the scripts here: tells of one step of a long run in one line.

# On a terminal the line first clears what was written below the last one.
clear=

tell() { # WHAT OUTCOME SECONDS [LEFT]
    printf '%s  %-36s %-14s %6s%s\n' "$clear" "$1" "$2" "$3" "${4:+ $(printf '%4d left' "$4")}"
}
