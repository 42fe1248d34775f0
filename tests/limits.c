/* Prints the rows on limits and lengths that are too long for a program with only a stack: what each call answers, and
   after how many runs of P. */
#include "jeczmilot.h"

#include <inttypes.h>
#include <stdio.h>
#include <stdlib.h>

static uint8_t *zeros(size_t length)
{
    uint8_t *bytes = calloc(length, 1);
    if (!bytes) {
        fputs("no memory\n", stderr);
        exit(1);
    }
    return bytes;
}

static void print_row(const char *name, uint32_t width, struct norx_outcome outcome)
{
    printf("%s at %" PRIu32 " bits: %" PRIu32 ", %" PRIu32 " runs\n", name, width, outcome.answer, outcome.runs);
}

/* Seals zeros and prints what comes of it. */
static void row(const char *name, uint32_t width, size_t header, size_t body, size_t trailer)
{
    size_t row_bytes = width / 2;
    uint8_t *key = zeros(row_bytes), *parts[3] = {zeros(header), zeros(body), zeros(trailer)};
    uint8_t *out = zeros(body + row_bytes);
    print_row(name, width,
              norx_seal(width, 4, key, row_bytes, key, row_bytes, parts[0], header, parts[1], body, parts[2], trailer,
                        out, body + row_bytes));
    free(key);
    for (int i = 0; i < 3; i++) {
        free(parts[i]);
    }
    free(out);
}

/* Seals a segment of zeros and prints what comes of it. */
static void segment_row(const char *name, uint32_t width, size_t note, uint64_t index, uint32_t last, size_t body)
{
    size_t row_bytes = width / 2;
    uint8_t *key = zeros(row_bytes), *parts[2] = {zeros(note), zeros(body)}, *out = zeros(body + row_bytes);
    print_row(name, width,
              norx_segment_seal(width, 4, key, row_bytes, key, row_bytes - 8, 7, 12, parts[0], note, index, last,
                                parts[1], body, out, body + row_bytes));
    free(key);
    free(parts[0]);
    free(parts[1]);
    free(out);
}

static void segment_rows(uint32_t width)
{
    const uint64_t highest = JECZMILOT_SEGMENTS_LIMIT - 1;

    segment_row("a segment with a note of 65520", width, JECZMILOT_NOTE_LIMIT, 0, 1, 1);
    segment_row("a segment with a note of 65521", width, JECZMILOT_NOTE_LIMIT + 1, 0, 1, 1);
    segment_row("a last segment of 65536", width, 0, 1, 1, JECZMILOT_SEGMENT_BYTES);
    segment_row("a last segment of 65537", width, 0, 1, 1, JECZMILOT_SEGMENT_BYTES + 1);
    segment_row("a segment of 65536, not last", width, 0, 1, 0, JECZMILOT_SEGMENT_BYTES);
    segment_row("a segment of 65537, not last", width, 0, 1, 0, JECZMILOT_SEGMENT_BYTES + 1);
    segment_row("segment 1048574, not last", width, 0, highest - 1, 0, JECZMILOT_SEGMENT_BYTES);
    segment_row("segment 1048575, not last", width, 0, highest, 0, JECZMILOT_SEGMENT_BYTES);
    segment_row("segment 1048575, last", width, 0, highest, 1, JECZMILOT_SEGMENT_BYTES);
    segment_row("segment 1048576, last", width, 0, highest + 1, 1, JECZMILOT_SEGMENT_BYTES);
    segment_row("the longest note and body of a segment", width, JECZMILOT_NOTE_LIMIT, 0, 1,
                JECZMILOT_SEGMENT_BYTES);
}

/* Writes the list of a job that is as long as a list can be, and prints the answer. */
static void list_row(const char *name, uint64_t length)
{
    size_t len = norx_list_length(UINT64_MAX, UINT64_MAX, length);
    uint8_t *out = zeros(len);
    uint32_t answer = norx_list_write(UINT64_MAX, UINT64_MAX, length, out, len);
    printf("%s, in %zu bytes: %" PRIu32 "\n", name, len, answer);
    free(out);
}

int main(void)
{
    for (uint32_t width = 32; width <= 64; width += 32) {
        row("a body of 16777216", width, 0, JECZMILOT_BODY_LIMIT, 0);
        row("a body of 16777217", width, 0, JECZMILOT_BODY_LIMIT + 1, 0);
        row("a header of 65536", width, JECZMILOT_HEADER_LIMIT, 1, 0);
        row("a header of 65537", width, JECZMILOT_HEADER_LIMIT + 1, 1, 0);
        row("a trailer of 65536", width, 0, 1, JECZMILOT_TRAILER_LIMIT);
        row("a trailer of 65537", width, 0, 1, JECZMILOT_TRAILER_LIMIT + 1);
        row("the longest header, body and trailer", width, JECZMILOT_HEADER_LIMIT, JECZMILOT_BODY_LIMIT,
            JECZMILOT_TRAILER_LIMIT);
        segment_rows(width);
    }
    list_row("a list of a body of 68719476736", JECZMILOT_LIST_BODY_LIMIT);
    list_row("a list of a body of 68719476737", JECZMILOT_LIST_BODY_LIMIT + 1);
    return 0;
}
