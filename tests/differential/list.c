/* Lists of segments, and the calls that write and read them with library and reference. */

#include "list.h"

#include <inttypes.h>
#include <stdarg.h>
#include <stdio.h>
#include <stdlib.h>
#include <string.h>

#include "cases.h"
#include "fenced.h"
#include "guarded.h"
#include "jeczmilot.h"
#include "list_definition.h"

enum { LONGEST_ADDED = 200 };

const uint64_t list_body_limit = UINT64_C(68719476736);

static struct guarded library_output, reference_output, lent_text;

struct reference_list numbers_of(const struct listed *listed)
{
    uint64_t segments = listed->length == 0 ? 1 : (listed->length + SEGMENT_BYTES - 1) / SEGMENT_BYTES;

    return (struct reference_list){0, listed->job, listed->revision, segments, listed->length};
}

size_t list_length(const struct listed *listed)
{
    return reference_list_length(listed->job, listed->revision, listed->length);
}

uint64_t any_number(struct prng *prng)
{
    uint64_t number = prng_next(prng);

    number >>= prng_below(prng, 64);
    switch (prng_below(prng, 4)) {
    case 0:
        number = 1;
        for (size_t zeros = prng_below(prng, 20); zeros > 0; zeros--)
            number *= 10;
        return number - prng_below(prng, 2);
    case 1:
        return UINT64_MAX - prng_below(prng, 8);
    default:
        return number;
    }
}

struct listed any_edition(struct prng *prng)
{
    struct listed listed = {.length = 0};

    listed.job = any_number(prng);
    listed.revision = any_number(prng);
    return listed;
}

void text_add_bytes(struct text *text, const void *bytes, size_t length)
{
    if (length > LONGEST_TEXT - text->length) {
        fprintf(stderr, "a short text is over %d bytes\n", LONGEST_TEXT);
        exit(2);
    }
    memcpy(text->bytes + text->length, bytes, length);
    text->length += length;
}

void text_add(struct text *text, const char *format, ...)
{
    char added[LONGEST_ADDED];
    va_list arguments;

    va_start(arguments, format);
    text_add_bytes(text, added, (size_t)vsnprintf(added, sizeof added, format, arguments));
    va_end(arguments);
}

void text_add_list(struct text *text, const struct listed *listed)
{
    uint64_t left = listed->length, index = 0;

    do {
        uint64_t length = left < SEGMENT_BYTES ? left : SEGMENT_BYTES;

        text_add(text, "%" PRIu64 "\t%" PRIu64 "\t%" PRIu64 "\t%" PRIu64 "\n", listed->job, listed->revision, index++,
                 length);
        left -= length;
    } while (left > 0);
}

bool compare_list_length(const struct listed *l, size_t expected)
{
    size_t found = norx_list_length(l->job, l->revision, l->length), by_reference = list_length(l);

    if (found == expected && by_reference == expected)
        return true;
    case_differs("list-length: %zu, the reference gives %zu, expected is %zu", found, by_reference, expected);
    return false;
}

static bool compare_answers(uint32_t answer, uint32_t reference_answer, uint32_t expected)
{
    if (answer == expected && reference_answer == expected)
        return true;
    case_differs("list-write: answer %" PRIu32 ", the reference answers %" PRIu32 ", expected is %" PRIu32, answer,
                 reference_answer, expected);
    return false;
}

/* Finds the first byte in which the two outputs differ. */
static bool compare_outputs(void)
{
    size_t length = library_output.length, i = 0;

    if (length == 0 || memcmp(library_output.bytes, reference_output.bytes, length) == 0)
        return true;
    while (library_output.bytes[i] == reference_output.bytes[i])
        i++;
    case_differs("list-write: output byte %zu of %zu is %02x, in the reference's output %02x", i, length,
                 library_output.bytes[i], reference_output.bytes[i]);
    return false;
}

static bool compare_with_rule(uint32_t answer)
{
    if (answer != DONE && !output_is_untouched(&library_output))
        case_differs("list-write: answer %" PRIu32 " changed the output", answer);
    else if (!guards_are_intact(&library_output))
        case_differs("list-write: the library wrote outside the output");
    else if (!guards_are_intact(&reference_output))
        case_differs("list-write: the reference wrote outside the output");
    else
        return true;
    return false;
}

bool compare_list_write(const struct listed *l, size_t out_len, uint32_t expected_answer)
{
    uint32_t answer, reference_answer;

    guarded_output(&library_output, out_len, case_number());
    guarded_output(&reference_output, out_len, case_number());
    answer = norx_list_write(l->job, l->revision, l->length, library_output.bytes, out_len);
    reference_answer = reference_list_write(l->job, l->revision, l->length, reference_output.bytes, out_len);
    return compare_answers(answer, reference_answer, expected_answer) && compare_outputs() && compare_with_rule(answer);
}

bool compare_list_write_to_null(const struct listed *l, uint32_t expected_answer)
{
    return compare_answers(norx_list_write(l->job, l->revision, l->length, NULL, 0),
                           reference_list_write(l->job, l->revision, l->length, NULL, 0), expected_answer);
}

struct bytes written_list(void)
{
    return (struct bytes){library_output.bytes, library_output.length};
}

static struct reference_list read_by_library(const uint8_t *text, size_t length)
{
    struct norx_list list = norx_list_read(text, length);

    return (struct reference_list){list.bad, list.job, list.revision, list.segments, list.length};
}

static bool are_same(struct reference_list a, struct reference_list b)
{
    return a.bad == b.bad && a.job == b.job && a.revision == b.revision && a.segments == b.segments &&
           a.length == b.length;
}

static void say_numbers(const char *who, struct reference_list list)
{
    case_differs("list-read: %s bad %" PRIu64 ", job %" PRIu64 ", revision %" PRIu64 ", segments %" PRIu64
                 ", length %" PRIu64,
                 who, list.bad, list.job, list.revision, list.segments, list.length);
}

/* The text as C would have it, as far as there is room. */
static void say_text(struct bytes text)
{
    char said[400];
    size_t length = 0, i = 0;

    for (; i < text.length && length < sizeof said - 8; i++) {
        uint8_t byte = text.at[i];

        if (byte == '\t' || byte == '\n')
            length += (size_t)sprintf(said + length, "%s", byte == '\t' ? "\\t" : "\\n");
        else
            length += (size_t)sprintf(said + length, byte < ' ' || byte > '~' ? "\\x%02x" : "%c", byte);
    }
    said[length] = '\0';
    case_differs("of %zu bytes, \"%s\"%s", text.length, said, i < text.length ? " and so on" : "");
}

static bool compare_numbers(const char *who, struct bytes text, struct reference_list found,
                            struct reference_list expected)
{
    if (are_same(found, expected))
        return true;
    say_numbers(who, found);
    say_numbers("expected is", expected);
    say_text(text);
    return false;
}

static bool compare_lent_text(struct bytes text)
{
    if (text.length > 0 && memcmp(text.at, lent_text.bytes, text.length) != 0)
        case_differs("list-read: the library changed the text");
    else if (!guards_are_intact(&lent_text))
        case_differs("list-read: the library wrote outside the text");
    else
        return true;
    return false;
}

bool compare_long_list_read(struct bytes text, struct reference_list expected)
{
    return compare_numbers("the library gives", text, read_by_library(text.at, text.length), expected) &&
           compare_numbers("the reference gives", text, reference_list_read(text.at, text.length), expected);
}

bool compare_list_read(struct bytes text, struct reference_list expected)
{
    const size_t length = text.length;

    guarded_input(&lent_text, text.at, length, case_number());
    return compare_long_list_read(text, expected) &&
           compare_numbers("the library, between guards, gives", text, read_by_library(lent_text.bytes, length),
                           expected) &&
           compare_lent_text(text) &&
           compare_numbers("the library, at the end of a page, gives", text,
                           read_by_library(fenced_behind(text.at, length), length), expected) &&
           compare_numbers("the library, at the begin of a page, gives", text,
                           read_by_library(fenced_before(text.at, length), length), expected);
}

bool compare_text_read(const struct text *text)
{
    const struct bytes bytes = {(const uint8_t *)text->bytes, text->length};

    return compare_list_read(bytes, list_by_definition(bytes));
}

bool compare_list_there_and_back(const struct listed *listed)
{
    return compare_list_length(listed, list_length(listed)) && compare_list_write(listed, list_length(listed), DONE) &&
           compare_list_read(written_list(), numbers_of(listed));
}
