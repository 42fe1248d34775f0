/* Lists of a job's segments: a line each, of job, revision, index and length, parted by tabs. */

#include "lists.h"

#include <stdbool.h>
#include <string.h>

enum { SEGMENT_BYTES = 65536, MOST_SEGMENTS = 1048576, LONGEST_NUMBER = 20 };

enum { DONE = 0, OVER_LIMIT = 4, BAD_OUTPUT = 5 };

static const uint64_t body_limit = (uint64_t)MOST_SEGMENTS * SEGMENT_BYTES;

static uint64_t segments_of(uint64_t length)
{
    return length == 0 ? 1 : (length - 1) / SEGMENT_BYTES + 1;
}

static uint64_t length_of_last(uint64_t length)
{
    return length - (segments_of(length) - 1) * SEGMENT_BYTES;
}

static size_t digits_of(uint64_t number)
{
    size_t digits = 1;

    for (; number >= 10; number /= 10)
        digits++;
    return digits;
}

/* The digits of all numbers below the count: each has one, those from 10 on have one more, and so on. */
static size_t digits_below(uint64_t count)
{
    size_t digits = (size_t)count;

    for (uint64_t power = 10; power < count; power *= 10)
        digits += (size_t)(count - power);
    return digits;
}

size_t reference_list_length(uint64_t job, uint64_t revision, uint64_t length)
{
    size_t lines;

    if (length > body_limit)
        return 0;
    lines = (size_t)segments_of(length);
    return lines * (digits_of(job) + digits_of(revision) + 4) + digits_below(lines) +
           (lines - 1) * digits_of(SEGMENT_BYTES) + digits_of(length_of_last(length));
}

/* Writes the number and the byte that closes its field, and gives the place behind them. */
static uint8_t *put_field(uint8_t *to, uint64_t number, uint8_t closing)
{
    size_t digits = digits_of(number);

    for (size_t i = digits; i-- > 0; number /= 10)
        to[i] = (uint8_t)('0' + number % 10);
    to[digits] = closing;
    return to + digits + 1;
}

uint32_t reference_list_write(uint64_t job, uint64_t revision, uint64_t length, uint8_t *out, size_t out_len)
{
    uint8_t front[2 * (LONGEST_NUMBER + 1)];
    const size_t front_len = (size_t)(put_field(put_field(front, job, '\t'), revision, '\t') - front);

    if (length > body_limit)
        return OVER_LIMIT;
    if (out_len != reference_list_length(job, revision, length))
        return BAD_OUTPUT;
    for (uint64_t index = 0, last = segments_of(length) - 1; index <= last; index++) {
        memcpy(out, front, front_len);
        out = put_field(out + front_len, index, '\t');
        out = put_field(out, index < last ? SEGMENT_BYTES : length_of_last(length), '\n');
    }
    return DONE;
}

/* Reads a number without leading zeros and the byte that closes its field; gives the place behind them, or null. */
static inline const uint8_t *take_field(const uint8_t *at, const uint8_t *end, uint8_t closing, uint64_t *number)
{
    const uint8_t *const begin = at;
    uint64_t value = 0;

    for (; at < end; at++) {
        const unsigned digit = *at - (unsigned)'0';

        if (digit > 9)
            break;
        if (value >= UINT64_MAX / 10 && (value > UINT64_MAX / 10 || digit > UINT64_MAX % 10))
            return NULL;
        value = 10 * value + digit;
    }
    if (at == end || *at != closing || at == begin || (*begin == '0' && at > begin + 1))
        return NULL;
    *number = value;
    return at + 1;
}

struct line {
    uint64_t job, revision, index, length;
};

static inline const uint8_t *take_line(const uint8_t *at, const uint8_t *end, struct line *line)
{
    if ((at = take_field(at, end, '\t', &line->job)) == NULL)
        return NULL;
    if ((at = take_field(at, end, '\t', &line->revision)) == NULL)
        return NULL;
    if ((at = take_field(at, end, '\t', &line->index)) == NULL)
        return NULL;
    return take_field(at, end, '\n', &line->length);
}

/* A line is good where the lines up to it are a list, whatever comes behind it. */
static struct reference_list refused_after(uint64_t good_lines)
{
    return (struct reference_list){.bad = good_lines + 1};
}

struct reference_list reference_list_read(const uint8_t *text, size_t text_len)
{
    const uint8_t *end;
    struct line first, line;
    uint64_t lines = 1;

    if (text_len == 0)
        return refused_after(0);
    end = text + text_len;
    text = take_line(text, end, &first);
    if (text == NULL || first.index != 0 || first.length > SEGMENT_BYTES)
        return refused_after(0);
    for (line = first; text < end; lines++) {
        if (line.length != SEGMENT_BYTES || lines == MOST_SEGMENTS)
            return refused_after(lines);
        text = take_line(text, end, &line);
        if (text == NULL || line.job != first.job || line.revision != first.revision || line.index != lines ||
            line.length == 0 || line.length > SEGMENT_BYTES)
            return refused_after(lines);
    }
    return (struct reference_list){0, first.job, first.revision, lines, (lines - 1) * SEGMENT_BYTES + line.length};
}
