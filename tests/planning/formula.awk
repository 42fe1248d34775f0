# The runs of P of a call, and of a job whole and in segments, and their time by the fit.

BEGIN {
    segment_bytes = 65536
    header_bytes = 16 + 14
}

function block_bytes(width) {
    return 12 * width / 8
}

function part_runs(width, bytes) {
    return bytes > 0 ? int(bytes / block_bytes(width)) + 1 : 0
}

function call_runs(width, header, body, trailer) {
    return 3 + part_runs(width, header) + part_runs(width, body) + part_runs(width, trailer)
}

function calls_of(cut, bytes) {
    return cut == "segments" && bytes > 0 ? int((bytes + segment_bytes - 1) / segment_bytes) : 1
}

# Of a job with the header that the measured ones have: job number, revision and a note of 14 bytes.
function job_runs(width, cut, bytes,    full) {
    full = calls_of(cut, bytes) - 1
    return full * call_runs(width, header_bytes, segment_bytes, 0) \
        + call_runs(width, header_bytes, bytes - full * segment_bytes, 0)
}

function kind_of(width, rounds, work) {
    return width " " rounds " " work
}

# In nanoseconds.
function formula_time(kind, cut, calls, runs) {
    return a[kind, cut] * calls + b[kind] * runs
}

function job_time(kind, cut, bytes) {
    return formula_time(kind, cut, calls_of(cut, bytes), job_runs(kind + 0, cut, bytes))
}

function megabytes_a_second(kind) {
    return 1000 * block_bytes(kind + 0) / b[kind]
}
