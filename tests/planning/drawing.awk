# Texts, lines and points of an SVG, and panels over the bytes of the body, which all have the same axis below.
# The panel at work is in panel_top, panel_height, panel_low and panel_high.

BEGIN {
    left = 92
    right = 750
    first_x = 122
    last_x = 720
    first_bytes = 64
    last_bytes = 16777216
}

function escaped(text) {
    gsub(/&/, "\\&amp;", text)
    gsub(/</, "\\&lt;", text)
    return text
}

function put_text(class, x, y, text) {
    printf "    <text class='%s' x='%.1f' y='%.1f'>%s</text>\n", class, x, y, escaped(text)
}

function put_path(class, path) {
    printf "    <path class='%s' d='%s'/>\n", class, path
}

function put_line(class, x1, y1, x2, y2) {
    put_path(class, sprintf("M%.1f %.1fL%.1f %.1f", x1, y1, x2, y2))
}

# A whole job is a ring, one in segments a cross.
function put_point(class, cut, x, y) {
    if (cut == "whole")
        printf "    <circle class='%s' cx='%.1f' cy='%.1f' r='4.5'/>\n", class, x, y
    else
        put_path(class, sprintf("M%.1f %.1fl7 7m0 -7l-7 7", x - 3.5, y - 3.5))
}

function x_of(bytes) {
    return first_x + (last_x - first_x) * log(bytes / first_bytes) / log(last_bytes / first_bytes)
}

function y_of(value) {
    return panel_top + panel_height * (panel_high - value) / (panel_high - panel_low)
}

function begin_panel(id, title, top, height, low, high,    bytes) {
    panel_top = top
    panel_height = height
    panel_low = low
    panel_high = high
    printf "\n  <g id='%s'>\n", id
    printf "    <rect class='frame' x='%d' y='%d' width='%d' height='%d'/>\n", left, top, right - left, height
    printf "    <text class='head mid' transform='translate(22 %.1f) rotate(-90)'>%s</text>\n", top + height / 2, title
    for (bytes = first_bytes; bytes <= last_bytes; bytes *= 4) {
        put_line("grid", x_of(bytes), top, x_of(bytes), top + height)
        put_text("mid", x_of(bytes), top + height + 17, spoken_bytes(bytes))
    }
}

function put_tick(value, label) {
    put_line("grid", left, y_of(value), right, y_of(value))
    put_text("end", left - 8, y_of(value) + 4.5, label)
}

function end_panel() {
    print "  </g>"
}
