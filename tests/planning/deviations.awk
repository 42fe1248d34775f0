# Behind figures.awk: how far the measured times are off the formula.

# As a share of the formula's time; above 0 where the measured time is longer.
function deviation(line) {
    return time_at[line] / job_time(kind_at[line], cut_at[line], bytes_at[line]) - 1
}

# Finds the lowest and the highest, and the line of the furthest, among the kinds that match, from so many bytes on.
function find_deviations(kinds, from_bytes,    line, share, size, largest) {
    lowest = 1e9
    highest = -1e9
    largest = -1
    for (line = 1; line <= lines; line++) {
        if (kind_at[line] !~ kinds || bytes_at[line] < from_bytes)
            continue
        share = deviation(line)
        size = share < 0 ? -share : share
        if (share < lowest)
            lowest = share
        if (share > highest)
            highest = share
        if (size > largest) {
            largest = size
            furthest = line
        }
    }
}
