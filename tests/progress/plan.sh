# Sourced by tests/progress.sh: what rt will do with the crates of crates.txt, where $command is its command.

# Prints the crates of crates.txt, in its order.
crates_listed() {
    sed -e 's/#.*//' -n -e 's/^ *\([a-z0-9_]*\).*:.*/\1/p' crates.txt
}

# Prints how many edits of a crate are tried.
edits_of() {
    set -- "crates/$1/must-fail"/*.edit
    if [ "$command" = ci ] && [ -f "$1" ]; then echo $#; else echo 0; fi
}

# Prints how often a crate is run: a program once, and by rt ci as each of two compilers builds it.
runs_of() {
    if [ ! -f "crates/$1/src/main.rt" ]; then
        echo 0
    elif [ "$command" = ci ]; then
        echo 2
    else
        echo 1
    fi
}
