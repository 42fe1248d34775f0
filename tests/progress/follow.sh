# Sourced by tests/progress.sh: reads what rt says and tells of each crate, edit and run. $left is how many are left, empty
# where that cannot be known, $began is when the run began, and the file $notes has what rt has said since its last line of
# its own. What it says of a proved crate is passed over; the rest is shown, as is every line of rt that is not known here.

pass_over_notes() {
    : >"$notes"
}

show_notes() {
    cat "$notes"
    pass_over_notes
}

show_line() {
    show_notes
    printf '%s\n' "$line"
}

# The seconds are those since the run began, for rt says of nothing how long it took.
done_with() { # WHAT OUTCOME
    [ -z "$left" ] || left=$((left - 1))
    tell "$1" "$2" "$(($(date +%s) - began)) s" "$left"
}

# A crate that is not proved has no edit tried and is not run.
not_proved() { # CRATE
    show_notes
    [ -z "$left" ] || left=$((left - $(edits_of "$1") - $(runs_of "$1")))
    done_with "$1" "NOT PROVED"
}

# What the compiler said of a bad edit comes behind its line, and is shown by the next one.
edit_to_look_at() { # OUTCOME
    show_notes
    done_with "$edit" "$1"
    printf '%s\n' "$line"
}

# What every command says of the libraries that it loads.
is_of_libraries() {
    case $line in
    "logic /"* | "statements "*": modules loaded="* | "library "*": modules loaded="* | "axioms "*) ;;
    *) return 1 ;;
    esac
}

follow_ci() {
    words=${line#rt: }
    name=${words%%[ :]*}
    edit=${words#must-fail }
    edit=${edit%%.edit: *}
    case $line in
    "rt: $name is kept: an earlier run on this machine proved "*) done_with "$name" "proved before" ;;
    "rt: $name proved") pass_over_notes && done_with "$name" proved ;;
    "rt: $name NOT PROVED"*) not_proved "$name" && printf '%s\n' "$line" ;;
    "rt: must-fail $edit.edit: refused, as it must be (only "*) edit_to_look_at refused ;;
    "rt: must-fail $edit.edit: refused, as it must be"*) show_notes && done_with "$edit" refused ;;
    "rt: must-fail $edit.edit: NOT REFUSED: "*) edit_to_look_at "NOT REFUSED" ;;
    "rt: must-fail $edit.edit: NOT TRIED: "*) edit_to_look_at "NOT TRIED" ;;
    "rt: must-fail $edit.edit: BAD EDIT: "*) edit_to_look_at "BAD EDIT" ;;
    "rt: $name ran, and wrote what its file stdout has") show_notes && done_with "$name" ran ;;
    "rt: $name ran (built by Rattle's own compiler), and wrote "*) done_with "$name, by Rattle's compiler" ran ;;
    "rt: $name: its tests are proved" | "rt: $name: its tests passed") pass_over_notes && printf '%s\n' "$line" ;;
    "rt: $name: trying its must-fail edits ("* | "rt: note: "* | "rt: warning: "*) printf '%s\n' "$line" ;;
    "rt: $name: "*" must-fail edits were tried by an earlier run on this machine, "*) ;;
    [0-9]*" passed, "[0-9]*" failed") show_notes && echo "rt ci: $line" ;;
    "rt: "*) show_line ;;
    "== "*) ;;
    *) printf '%s\n' "$line" >>"$notes" ;;
    esac
}

# Of a library that was built before, rt all says nothing behind its name.
end_crate() {
    if [ -z "$crate" ] || [ -n "$is_told" ]; then
        pass_over_notes
    elif [ -s "$notes" ]; then
        not_proved "$crate"
    else
        done_with "$crate" "proved before"
    fi
    crate=
    is_told=
}

follow_other() {
    name=${line#crate }
    name=${name%%:*}
    case $line in
    "== summary") end_crate ;;
    "== "*) end_crate && crate=${line#== } ;;
    "crate $name: modules loaded="*) crate=$name ;;
    "logic=proved "*) pass_over_notes && done_with "$crate" proved && is_told=yes ;;
    "logic=not-proved"*) not_proved "$crate" && is_told=yes ;;
    "rt: the program wrote "*", and ended with status "*) pass_over_notes && done_with "$crate" ran ;;
    "rt: chose "* | "rt: "*": begins with what a check kept in "* | "rt: rt check --fix-imports "* | "only="* | *": ok") ;;
    "rt: "* | *": failed ("*")" | *": not run, since "* | [0-9]*" of "*" crates ok") show_line ;;
    *) printf '%s\n' "$line" >>"$notes" ;;
    esac
}

# The shell reads line by line; an awk may wait for thousands of bytes before it reads the first.
follow() {
    crate=
    is_told=
    while IFS= read -r line || [ -n "$line" ]; do
        if is_of_libraries; then
            continue
        elif [ "$command" = ci ]; then
            follow_ci
        else
            follow_other
        fi
    done
    show_notes
}
