# Behind formula.awk: reads the figures of tests/bench_runs.c, and fits time = a * calls + b * runs to those of each
# width, rounds and work, with one a for whole jobs and one for segments. The fit is by least squares of the relative
# deviations, so that a short job counts as much as a long one.

function refuse(why) {
    print "the figures, line " FNR ": " why | "cat >&2"
    refused = 1
    exit 1
}

function is_known(width, rounds, work, cut) {
    return (width "," rounds) ~ /^(32|64),(4|6)$/ && (work "," cut) ~ /^((seal|open),(whole|segments)|wrong,whole)$/
}

function take(kind, cut, calls, runs, time) {
    calls_calls[kind, cut] += calls * calls / time / time
    calls_runs[kind, cut] += calls * runs / time / time
    calls_time[kind, cut] += calls / time
    runs_runs[kind] += runs * runs / time / time
    runs_time[kind] += runs / time
}

# Leaves of the two sums over runs what the best a of these jobs cannot make up for.
function leave_calls(kind, cut) {
    runs_runs[kind] -= calls_runs[kind, cut] * calls_runs[kind, cut] / calls_calls[kind, cut]
    runs_time[kind] -= calls_runs[kind, cut] * calls_time[kind, cut] / calls_calls[kind, cut]
}

# The a that is best for these jobs and this b.
function fit_calls(kind, cut) {
    a[kind, cut] = (calls_time[kind, cut] - b[kind] * calls_runs[kind, cut]) / calls_calls[kind, cut]
}

function fit(kind,    cuts, count, i) {
    count = split(kind ~ /wrong/ ? "whole" : "whole segments", cuts)
    for (i = 1; i <= count; i++) {
        if (!((kind, cuts[i]) in calls_calls))
            refuse("there are no lines of " kind " " cuts[i])
        leave_calls(kind, cuts[i])
    }
    b[kind] = runs_time[kind] / runs_runs[kind]
    for (i = 1; i <= count; i++)
        fit_calls(kind, cuts[i])
}

FNR == 1 {
    if ($1 != "#" || NF < 2)
        refuse("the first line is a comment that names the machine and the day")
    machine = substr($0, 3)
}

/^#/ { next }

NF != 7 || !is_known($1, $2, $3, $4) || $7 <= 0 {
    refuse("a line has width, rounds, work, cut, bytes, runs and nanoseconds")
}

$6 != job_runs($1, $4, $5) {
    refuse("the runs are " job_runs($1, $4, $5) " by the formula")
}

{
    lines++
    kind_at[lines] = kind_of($1, $2, $3)
    cut_at[lines] = $4
    bytes_at[lines] = $5
    runs_at[lines] = $6
    time_at[lines] = $7
    time_of[kind_at[lines], $4, $5] = $7
    take(kind_at[lines], $4, calls_of($4, $5), $6, $7)
}

END {
    if (refused)
        exit 1
    for (width = 32; width <= 64; width += 32)
        for (rounds = 4; rounds <= 6; rounds += 2) {
            fit(kind_of(width, rounds, "seal"))
            fit(kind_of(width, rounds, "open"))
            fit(kind_of(width, rounds, "wrong"))
        }
}
