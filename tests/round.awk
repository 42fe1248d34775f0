# Reads what objdump shows of the archive, and says how the round of P is compiled at each width: of the functions that
# make the turns of the loop over blocks, the innermost loop with the most xors. A function over the width has an instance for
# each, whose name does not say which it is; its rotates and shifts do.

BEGIN {
    # Even by vectors a round has two times four steps with three xors each.
    least_xors = 24
    missing = 0
}

function begin_function(name) {
    makes_turns = name ~ /blocks::turns::/
    count = 0
    latest_begin = 0
    split("", place_of)
}

function count_of(pattern, first, last,    place, found) {
    found = 0
    for (place = first; place <= last; place++)
        found += instruction[place] ~ pattern
    return found
}

# A rotate can also be compiled as a double shift of a register with itself.
function described(first, last) {
    return last - first + 1 " instructions, " \
        count_of("^v?ps[lr]l", first, last) " vector shifts, " \
        count_of("^v?(pshuf|shufp|p?unpck|palignr)", first, last) " shuffles, " \
        count_of("^(ro[lr]|sh[lr]d)", first, last) " rotates, " \
        count_of("[(]%r[sb]p", first, last) " stack accesses"
}

function width_of(first, last,    wide, narrow) {
    wide = count_of("^v?ps[lr]lq|^(ro[lr]|sh[lr]d).*%r([a-z][a-z]|[0-9]+)$", first, last)
    narrow = count_of("^v?ps[lr]ld|^(ro[lr]|sh[lr]d).*%(e[a-z][a-z]|r[0-9]+d)$", first, last)
    return wide > narrow ? 64 : 32
}

function weigh(first, last,    xors, width) {
    xors = count_of("^v?p?xor", first, last)
    width = width_of(first, last)
    if (xors < least_xors || xors <= most_xors[width])
        return
    most_xors[width] = xors
    round[width] = described(first, last)
}

# Loops come in the order of their ends, so one is innermost unless one before it begins where it does or later.
function end_loop(first, last) {
    if (first <= latest_begin)
        return
    latest_begin = first
    weigh(first, last)
}

function tell(width) {
    if (width in round)
        print "round at " width " bits: " round[width]
    else {
        print "round at " width " bits: the archive has no loop that could be it" | "cat >&2"
        missing = 1
    }
}

/^[0-9a-f]+ <.*>:$/ { begin_function($2) }

makes_turns && /^ *[0-9a-f]+:\t/ {
    place_of[substr($1, 1, length($1) - 1)] = ++count
    instruction[count] = substr($0, index($0, "\t") + 1)
    if ($2 ~ /^j/ && ($3 in place_of))
        end_loop(place_of[$3], count)
}

END {
    tell(32)
    tell(64)
    exit missing
}
