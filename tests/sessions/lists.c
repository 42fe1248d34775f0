/* A list by its requirements: the lines that are written, and a text read by writing anew what it says. */

#include "lists.h"

#include <inttypes.h>
#include <string.h>

static const uint64_t longest_body = (uint64_t)MOST_SEGMENTS * SEGMENT_BYTES;

static void add_line(struct buffer *text, struct edition edition, uint64_t index, uint64_t length)
{
    buffer_print(text, "%" PRIu64 "\t%" PRIu64 "\t%" PRIu64 "\t%" PRIu64 "\n", edition.job, edition.revision, index,
                 length);
}

void add_list(struct buffer *text, struct edition edition, uint64_t length, size_t longest)
{
    uint64_t index = 0;

    for (; length > SEGMENT_BYTES && text->length <= longest; length -= SEGMENT_BYTES)
        add_line(text, edition, index++, SEGMENT_BYTES);
    add_line(text, edition, index, length);
}

uint32_t list_write(struct edition edition, uint64_t length, uint8_t *out, size_t out_len)
{
    static struct buffer text;

    if (length > longest_body)
        return OVER_LIMIT;
    text.length = 0;
    add_list(&text, edition, length, out_len);
    if (text.length != out_len)
        return BAD_OUTPUT;
    memcpy(out, text.at, text.length);
    return DONE;
}

struct bytes next_field(struct bytes *text)
{
    struct bytes field = {text->at, 0};
    size_t taken;

    while (field.length < text->length && field.at[field.length] != '\t' && field.at[field.length] != '\n')
        field.length++;
    taken = field.length + (field.length < text->length);
    *text = (struct bytes){text->at + taken, text->length - taken};
    return field;
}

/* The number that the digits of the next field say. Other bytes say some number too, but are never written for it. */
static uint64_t next_number(struct bytes *line)
{
    struct bytes field = next_field(line);
    uint64_t number = 0;

    for (size_t i = 0; i < field.length; i++)
        number = 10 * number + field.at[i] - '0';
    return number;
}

static struct edition said_edition(struct bytes text)
{
    uint64_t job = next_number(&text);

    return (struct edition){job, next_number(&text)};
}

static uint64_t said_length(struct bytes line)
{
    for (int i = 0; i < 3; i++)
        next_field(&line);
    return next_number(&line);
}

/* The line that begins there, with its newline if it has one. */
static struct bytes line_from(struct bytes text, size_t begin)
{
    size_t end = begin;

    while (end < text.length && text.at[end] != '\n')
        end++;
    return (struct bytes){text.at + begin, end - begin + (end < text.length)};
}

/* Whether the writer writes these lines: those of the whole segments, and behind them one of a last segment. */
static bool are_list(struct bytes lines, struct buffer *whole, struct edition edition, uint64_t index, uint64_t last)
{
    size_t before = whole->length;
    bool are_same;

    add_line(whole, edition, index, last);
    are_same = lines.length == whole->length && memcmp(lines.at, whole->at, lines.length) == 0;
    whole->length = before;
    return are_same && segment_is_ruled(index, true, last);
}

/* The first lines, one more in each turn, are written anew from what they say: the first one says the edition, and the
   last one the length of the last segment. */
uint64_t list_read(struct list *list, struct bytes text)
{
    static struct buffer whole;
    struct bytes lines = {text.at, 0};

    whole.length = 0;
    list->edition = said_edition(text);
    for (uint64_t index = 0;; index++) {
        struct bytes line = line_from(text, lines.length);
        uint64_t last = said_length(line);

        lines.length += line.length;
        if (!are_list(lines, &whole, list->edition, index, last))
            return index + 1;
        list->segments = index + 1;
        list->length = index * SEGMENT_BYTES + last;
        if (lines.length == text.length)
            return 0;
        add_line(&whole, list->edition, index, SEGMENT_BYTES);
    }
}
