# Numbers as people read them.

function grouped(number,    text, groups) {
    text = sprintf("%.0f", number)
    while (length(text) > 3) {
        groups = "," substr(text, length(text) - 2) groups
        text = substr(text, 1, length(text) - 3)
    }
    return text groups
}

function three_digits(number) {
    return sprintf(number < 9.995 ? "%.2f" : number < 99.95 ? "%.1f" : "%.0f", number)
}

function spoken_time(nanoseconds) {
    if (nanoseconds < 999.5)
        return three_digits(nanoseconds) " ns"
    if (nanoseconds < 999500)
        return three_digits(nanoseconds / 1000) " µs"
    if (nanoseconds < 999500000)
        return three_digits(nanoseconds / 1000000) " ms"
    return three_digits(nanoseconds / 1000000000) " s"
}

function spoken_bytes(bytes) {
    if (bytes < 1024)
        return bytes " B"
    return bytes < 1048576 ? bytes / 1024 " KiB" : bytes / 1048576 " MiB"
}
