# Last of the files: the tables of docs/PLANNING.md.

function fit_of(kind) {
    return sprintf("%.0f, %.0f, %.1f", a[kind, "whole"], a[kind, "segments"], b[kind])
}

function print_fit(width, rounds,    open) {
    open = kind_of(width, rounds, "open")
    print "| " width ", " rounds " | " fit_of(open) " | " fit_of(kind_of(width, rounds, "seal")) " | " \
        grouped(megabytes_a_second(open)) " |"
}

function spoken_share(share) {
    return sprintf("%.1f %% %s", share < 0 ? -100 * share : 100 * share, share < 0 ? "below" : "above")
}

# The lowest and the highest deviation, in words.
function spoken_deviations() {
    return spoken_share(lowest) " to " spoken_share(highest)
}

function spoken_line(line,    words) {
    split(kind_at[line], words)
    return words[1] ", " words[2] ", " words[3] ", " \
        (bytes_at[line] > 0 ? spoken_bytes(bytes_at[line]) : "the empty job") \
        (cut_at[line] == "segments" ? " in segments" : " whole")
}

# Of a check with a wrong tag beside one with the right tag, over all jobs that both were measured on.
function find_wrong_tag(    line, right, ratio) {
    for (line = 1; line <= lines; line++) {
        if (kind_at[line] !~ /wrong/)
            continue
        right = kind_at[line]
        sub(/wrong/, "open", right)
        ratio = time_at[line] / time_of[right, cut_at[line], bytes_at[line]]
        if (!least_wrong || ratio < least_wrong)
            least_wrong = ratio
        if (ratio > most_wrong)
            most_wrong = ratio
    }
}

function print_example(job, cut, calls, sum, runs, measured) {
    print "| " job " | " grouped(calls) " | " sum " = " grouped(runs) " | " \
        spoken_time(formula_time(example, cut, calls, runs)) " | " (measured ? spoken_time(measured) : "") " |"
}

function print_whole(job, bytes,    parts) {
    parts = "3 + " part_runs(64, header_bytes) (bytes > 0 ? " + " grouped(part_runs(64, bytes)) : "")
    print_example(job, "whole", 1, parts, job_runs(64, "whole", bytes), time_of[example, "whole", bytes])
}

function print_full_segments(job, bytes,    calls, parts) {
    calls = calls_of("segments", bytes)
    parts = "3 + " part_runs(64, header_bytes) " + " part_runs(64, segment_bytes)
    print_example(job, "segments", calls, grouped(calls) " * (" parts ")", job_runs(64, "segments", bytes),
        time_of[example, "segments", bytes])
}

function print_largest_call(    text, body) {
    text = part_runs(64, 65536)
    body = part_runs(64, 16777216)
    print_example("the largest call: 16 MiB, with a header and a trailer of 64 KiB", "whole", 1,
        "3 + " text " + " grouped(body) " + " text, 3 + text + body + text, 0)
}

END {
    print ""
    print "Measured on: " machine "."
    print ""
    print "| width, rounds | check, ns: a whole, a of a segment, b | seal, ns: the same | check of long jobs, MB/s |"
    print "|---|---|---|---|"
    for (width = 64; width >= 32; width -= 32)
        for (rounds = 4; rounds <= 6; rounds += 2)
            print_fit(width, rounds)
    print ""
    find_deviations(".", 0)
    find_wrong_tag()
    printf "The measured times of all %d lines lie from %s the formula; the furthest is that of %s. ", lines,
        spoken_deviations(), spoken_line(furthest)
    find_deviations(".", segment_bytes)
    printf "Of jobs of 64 KiB and more they lie from %s it. ", spoken_deviations()
    printf "A check with a wrong tag took %.2f to %.2f of the time of one with the right tag.\n", least_wrong,
        most_wrong
    print ""
    example = kind_of(64, 4, "open")
    print "Checks at 64-bit words and 4 rounds, with a note of 14 bytes:"
    print ""
    print "| job | calls | runs | time by the formula | measured |"
    print "|---|---|---|---|---|"
    print_whole("empty", 0)
    print_whole("1 byte", 1)
    print_whole("1 MiB whole", 1048576)
    print_full_segments("1 MiB in segments", 1048576)
    print_largest_call()
    print_full_segments("the largest job: 64 GiB in segments", 68719476736)
    print ""
}
