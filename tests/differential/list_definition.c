/* Reading by writing: a text is a list exactly if it is the one that its last line tells of. */

#include "list_definition.h"

#include <inttypes.h>
#include <stdio.h>
#include <stdlib.h>
#include <string.h>

enum { FIELDS = 4, LONGEST_LINE = 56 };

static size_t end_of_line(struct bytes text, size_t begin)
{
    const uint8_t *newline = memchr(text.at + begin, '\n', text.length - begin);

    return newline == NULL ? text.length : (size_t)(newline - text.at) + 1;
}

/* Whatever stands between the numbers is passed over: the text that is written anew has tabs there. */
static bool read_loosely(struct bytes line, uint64_t numbers[FIELDS])
{
    char copy[LONGEST_LINE + 1] = {0};
    char *at = copy;

    if (line.length > LONGEST_LINE)
        return false;
    memcpy(copy, line.at, line.length);
    for (int i = 0; i < FIELDS; i++) {
        numbers[i] = strtoull(at, &at, 10);
        at += *at != '\0' ? 1 : 0;
    }
    return true;
}

/* Whether the rest of the text begins with that line; if so, steps past it. */
static bool step_past_line(struct bytes *rest, const struct listed *listed, uint64_t index, uint64_t length)
{
    char line[LONGEST_LINE + 1];
    size_t written = (size_t)snprintf(line, sizeof line, "%" PRIu64 "\t%" PRIu64 "\t%" PRIu64 "\t%" PRIu64 "\n",
                                      listed->job, listed->revision, index, length);

    if (rest->length < written || memcmp(rest->at, line, written) != 0)
        return false;
    rest->at += written;
    rest->length -= written;
    return true;
}

static bool is_list_of(struct bytes text, const struct listed *listed)
{
    uint64_t segments = numbers_of(listed).segments;

    for (uint64_t index = 0; index < segments; index++) {
        uint64_t left = listed->length - index * SEGMENT_BYTES;

        if (!step_past_line(&text, listed, index, left < SEGMENT_BYTES ? left : SEGMENT_BYTES))
            return false;
    }
    return text.length == 0;
}

/* Whether the text, which has its last line from there on, is a list; if so, of which job. */
static bool is_list(struct bytes text, size_t last_line, struct listed *listed)
{
    uint64_t numbers[FIELDS];

    if (!read_loosely((struct bytes){text.at + last_line, text.length - last_line}, numbers) ||
        numbers[2] > LAST_INDEX || numbers[3] > SEGMENT_BYTES)
        return false;
    *listed = (struct listed){numbers[0], numbers[1], numbers[2] * SEGMENT_BYTES + numbers[3]};
    return is_list_of(text, listed);
}

struct reference_list list_by_definition(struct bytes text)
{
    struct listed listed;
    uint64_t lines = 0;
    size_t begin, end = 0;

    if (text.length == 0)
        return (struct reference_list){.bad = 1};
    do {
        begin = end;
        end = end_of_line(text, begin);
        lines++;
        if (!is_list((struct bytes){text.at, end}, begin, &listed))
            return (struct reference_list){.bad = lines};
    } while (end < text.length);
    return (struct reference_list){0, listed.job, listed.revision, lines, listed.length};
}
