# Last of the files: the figures and their fit as tables for the screen.

function measured_time(kind, cut, bytes) {
    return (kind, cut, bytes) in time_of ? sprintf("%.0f", time_of[kind, cut, bytes]) : "-"
}

function print_job(width, rounds, bytes,    seal, open, wrong) {
    seal = kind_of(width, rounds, "seal")
    open = kind_of(width, rounds, "open")
    wrong = kind_of(width, rounds, "wrong")
    printf "%8d %8d %8d %9s %9s %9s %9s %9s\n", bytes, job_runs(width, "whole", bytes),
        job_runs(width, "segments", bytes), measured_time(seal, "whole", bytes), measured_time(seal, "segments", bytes),
        measured_time(open, "whole", bytes), measured_time(open, "segments", bytes),
        measured_time(wrong, "whole", bytes)
}

function print_jobs(width, rounds,    line) {
    print ""
    print width "-bit words, " rounds " rounds, a note of 14 bytes: runs of P, and nanoseconds, the best of many"
    printf "%8s %8s %8s %9s %9s %9s %9s %9s\n", "", "runs", "runs", "seal", "seal", "open", "open", "wrong tag"
    printf "%8s %8s %8s %9s %9s %9s %9s %9s\n", "bytes", "whole", "segments", "whole", "segments", "whole", "segments",
        "whole"
    for (line = 1; line <= lines; line++)
        if (kind_at[line] == kind_of(width, rounds, "open") && cut_at[line] == "whole")
            print_job(width, rounds, bytes_at[line])
}

function print_fit(width, rounds, work,    kind) {
    kind = kind_of(width, rounds, work)
    find_deviations("^" kind "$", 0)
    printf "%5d %6d  %-5s %7.1f %8s %7.2f %7.0f  %+6.1f %% to %+.1f %%\n", width, rounds, work, a[kind, "whole"],
        (kind, "segments") in a ? sprintf("%.1f", a[kind, "segments"]) : "-", b[kind], megabytes_a_second(kind),
        100 * lowest, 100 * highest
}

END {
    print machine
    for (width = 32; width <= 64; width += 32)
        for (rounds = 4; rounds <= 6; rounds += 2)
            print_jobs(width, rounds)
    print ""
    print "time = a * calls + b * runs, in nanoseconds; MB/s of a long job; how far the measured times are off"
    print "width rounds  work  a whole segments       b    MB/s  measured / formula"
    for (width = 32; width <= 64; width += 32)
        for (rounds = 4; rounds <= 6; rounds += 2) {
            print_fit(width, rounds, "seal")
            print_fit(width, rounds, "open")
            print_fit(width, rounds, "wrong")
        }
}
