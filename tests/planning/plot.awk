# Last of the files: the plot of docs/PLANNING.md. Its three panels are the time of a check, the runs of P, and how far
# the measured times are off the formula.

function log10(number) {
    return log(number) / log(10)
}

# As the axes have it.
function by_formula(what, kind, cut, bytes) {
    return log10(what == "time" ? job_time(kind, cut, bytes) : job_runs(kind + 0, cut, bytes))
}

# Steps from block to block; from the sixteenth on, where they are too small to be seen, a line.
function put_formula(what, kind, cut,    bytes, next_bytes, block, x, y, path) {
    block = block_bytes(kind + 0)
    path = sprintf("M%.1f %.1f", x_of(first_bytes), y_of(by_formula(what, kind, cut, first_bytes)))
    for (bytes = first_bytes; bytes < last_bytes; bytes = next_bytes) {
        next_bytes = bytes < 16 * block ? (int(bytes / block) + 1) * block : int(bytes * 1.25)
        if (next_bytes > last_bytes)
            next_bytes = last_bytes
        x = x_of(next_bytes)
        y = y_of(by_formula(what, kind, cut, next_bytes))
        path = path sprintf(bytes < 16 * block ? "H%.1fV%.1f" : "L%.1f %.1f", x, y)
    }
    put_path(class_of[kind] " " cut, path)
}

function put_measured(what, kind,    line, value) {
    for (line = 1; line <= lines; line++) {
        if (kind_at[line] != kind || bytes_at[line] < first_bytes)
            continue
        value = log10(what == "time" ? time_at[line] : runs_at[line])
        put_point(class_of[kind], cut_at[line], x_of(bytes_at[line]), y_of(value))
    }
}

function put_curves(what, kind) {
    put_formula(what, kind, "whole")
    put_formula(what, kind, "segments")
    put_measured(what, kind)
}

# Beside the end of its curve, but not above the given height; gives the height that the next name may have.
function put_name(what, kind, name, highest_y,    end_y, y) {
    end_y = y_of(by_formula(what, kind, "whole", last_bytes))
    y = end_y < highest_y ? highest_y : end_y
    put_line("lead", last_x + 8, end_y, right + 12, y)
    put_text("name", right + 16, y + 4.5, name)
    return y + 18
}

function spoken_kind(kind,    words) {
    split(kind, words)
    return words[1] " bits, " words[2] " rounds"
}

function spoken_fit(kind) {
    return sprintf("%.0f, %.0f, %.1f", a[kind, "whole"], a[kind, "segments"], b[kind])
}

function put_legend(y,    i) {
    printf "    <rect class='paper' x='%d' y='%d' width='300' height='136'/>\n", left + 8, y - 14
    put_line("sign", left + 15, y, left + 43, y)
    put_point("sign", "whole", left + 29, y)
    put_text("", left + 52, y + 4.5, "whole, one call: the formula, measured")
    put_line("sign segments", left + 15, y + 20, left + 43, y + 20)
    put_point("sign", "segments", left + 29, y + 20)
    put_text("", left + 52, y + 24.5, "in segments: the formula, measured")
    put_text("", left + 52, y + 44.5, "a whole, a of a segment, b, in ns:")
    for (i = 1; i <= 4; i++)
        put_text("", left + 52, y + 44.5 + 18 * i, spoken_kind(kinds[i]) ": " spoken_fit(kinds[i]))
}

function find_times(    line) {
    least_time = 1e99
    most_time = 0
    for (line = 1; line <= lines; line++) {
        if (bytes_at[line] < first_bytes || !(kind_at[line] in class_of))
            continue
        if (time_at[line] < least_time)
            least_time = time_at[line]
        if (time_at[line] > most_time)
            most_time = time_at[line]
    }
}

function decade_of_time(decade) {
    return 10 ^ (decade % 3) " " (decade < 3 ? "ns" : decade < 6 ? "µs" : decade < 9 ? "ms" : "s")
}

function put_times(    i, decade, highest_y) {
    find_times()
    begin_panel("times", "time of a check", 92, 390, int(log10(least_time)), int(log10(most_time)) + 1)
    for (decade = panel_low; decade <= panel_high; decade++)
        put_tick(decade, decade_of_time(decade))
    put_legend(116)
    for (i = 1; i <= 4; i++)
        put_curves("time", kinds[i])
    for (i = 1; i <= 4; i++)
        highest_y = put_name("time", kinds[i], spoken_kind(kinds[i]), highest_y)
    end_panel()
}

function put_runs(    decade, highest_y) {
    begin_panel("runs", "runs of P", 530, 240, 0, 6)
    for (decade = panel_low; decade <= panel_high; decade++)
        put_tick(decade, grouped(10 ^ decade))
    put_curves("runs", kinds[2])
    put_curves("runs", kinds[4])
    highest_y = put_name("runs", kinds[2], "32 bits", 0)
    highest_y = put_name("runs", kinds[4], "64 bits", highest_y)
    put_text("name", right + 16, highest_y + 4.5, "(4 rounds or 6)")
    end_panel()
}

# Where the axis ends: at the first of these shares that is enough, or at the last.
function end_of_axis(share,    ends, i) {
    split("0.01 0.02 0.05 0.1 0.2 0.5 1", ends)
    for (i = 1; i < 7 && ends[i] < share; i++)
        continue
    return ends[i] + 0
}

# At each length the four kinds stand beside each other.
function put_deviations_of(kind, shift,    line) {
    for (line = 1; line <= lines; line++)
        if (kind_at[line] == kind && bytes_at[line] >= first_bytes)
            put_point(class_of[kind], cut_at[line], x_of(bytes_at[line]) + shift, y_of(deviation(line)))
}

function put_deviations(    i, most) {
    find_deviations("open", first_bytes)
    most = end_of_axis(-lowest > highest ? -lowest : highest)
    begin_panel("deviations", "off the formula", 818, 150, -most, most)
    for (i = -2; i <= 2; i++)
        put_tick(most * i / 2, i == 0 ? "0" : sprintf("%+.1f %%", 50 * most * i))
    put_line("sign", left, y_of(0), right, y_of(0))
    for (i = 1; i <= 4; i++)
        put_deviations_of(kinds[i], 12 * (i - 2.5))
    put_text("name", right + 16, y_of(0) - 20, "measured times")
    put_text("name", right + 16, y_of(0) - 3, "above (+) and")
    put_text("name", right + 16, y_of(0) + 14, "below (-) the line,")
    put_text("name", right + 16, y_of(0) + 31, "colours as above")
    end_panel()
}

function put_style(    i) {
    print "  <style>"
    print "    text { font-family: sans-serif; font-size: 13px; fill: #1b2733; }"
    print "    circle, path { fill: none; stroke-width: 1.4; }"
    print "    .title { font-size: 20px; font-weight: bold; }"
    print "    .head { font-size: 14px; font-weight: bold; }"
    print "    .mid { text-anchor: middle; }"
    print "    .end { text-anchor: end; }"
    print "    .paper { fill: #ffffff; }"
    print "    .frame { fill: none; stroke: #33475b; stroke-width: 1.2; }"
    print "    .grid { stroke: #d9dee4; stroke-width: 1; }"
    print "    .lead { stroke: #8795a3; stroke-width: 1; }"
    print "    .sign { stroke: #33475b; }"
    print "    .segments { stroke-dasharray: 5 4; }"
    for (i = 1; i <= 4; i++)
        print "    ." class_of[kinds[i]] " { stroke: " colours[i] "; }"
    print "  </style>"
}

function put_top() {
    print "<?xml version='1.0' encoding='UTF-8'?>"
    print "<!-- Drawn by tests/planning.sh from measured figures. -->"
    print "<svg xmlns='http://www.w3.org/2000/svg' width='900' height='1044' viewBox='0 0 900 1044' role='img'"
    print "    aria-labelledby='title desc'>"
    print "  <title id='title'>What a check costs, by the length of the job</title>"
    print "  <desc id='desc'>Three panels over the bytes of the body, from 64 B to 16 MiB: the time of a check, the"
    print "    runs of P, and how far the measured times are off the formula; whole and in segments, at 32 and 64 bits,"
    print "    with 4 and 6 rounds. From some KiB on times and runs grow as the bytes do.</desc>"
    put_style()
    print "  <rect class='paper' width='900' height='1044'/>"
    print "\n  <g id='heading'>"
    put_text("title", 16, 34, "What a check costs, by the length of the job")
    put_text("", 16, 56, \
        "Whole by norx_open, in segments of 64 KiB by norx_segment_open; a note of 14 bytes, no trailer.")
    put_text("", 16, 75, "Measured on: " machine ".")
    print "  </g>"
}

function put_foot() {
    print "\n  <g id='foot'>"
    put_text("head mid", (left + right) / 2, 1010, "bytes of the body")
    put_text("mid", (left + right) / 2, 1030, \
        "Bytes, times and runs are on logarithmic axes, where the empty job has no place.")
    print "  </g>"
    print "</svg>"
}

END {
    split("32 6 open;32 4 open;64 6 open;64 4 open", kinds, ";")
    split("#c8781e #9a3b00 #4f93cf #1f4e79", colours)
    split("narrow6 narrow4 wide6 wide4", classes)
    for (i = 1; i <= 4; i++)
        class_of[kinds[i]] = classes[i]
    put_top()
    put_times()
    put_runs()
    put_deviations()
    put_foot()
}
