/* A number of one line spelled in another way, or beyond 64 bits. */

#include <inttypes.h>
#include <string.h>

#include "cases.h"
#include "families.h"
#include "list.h"

enum { FIELDS = 4, LINES = 3 };

/* N stands for the number that is due. */
static const char *const spellings[] = {
    "", "0N", "00N", "N0", "000000000000000000000N",
    "0000000000000000000000000000000000000000000000000000000000000000000000000000000000000000000000000000N",
    /* signs, blanks and other bytes */
    "+N", "-N", "-0", "-1", " N", "N ", "N\r", "N\n", "N\t", "\tN", "N\v", "N\f", "\"N\"", "N.", "N.0", ".N", "N,0",
    "0xN", "Ne0", "Nu", "#N", "/", ":", "N/", "N:", "/N", ":N", "O", "\xb2", "\xd9\xa0", "N\xc2\xa0", "\xef\xbb\xbfN",
    /* numbers of 64 bits that are perhaps not due */
    "0", "1", "9", "10", "65535", "65536", "65537", "4294967295", "4294967296", "9223372036854775807",
    "9223372036854775808", "18446744073709551614", "18446744073709551615",
    /* numbers beyond them */
    "18446744073709551616", "18446744073709551617", "18446744073709551625", "18446744073709551700",
    "18446744073709617152", "20000000000000000000", "36893488147419103232", "36893488147419103239",
    "99999999999999999999", "100000000000000000000", "184467440737095516150", "184467440737095516160",
    "340282366920938463463374607431768211456",
};

/* With one of these added, a number is the one that is due in its low bits alone. */
static const char *const carries[] = {"4294967296", "18446744073709551616"};

/* The decimal text of a sum, digit by digit, for it may be beyond 64 bits. */
static void add_decimal(char *sum, const char *decimal, uint64_t number)
{
    size_t length = strlen(decimal);

    memcpy(sum, decimal, length + 1);
    for (size_t i = length; i-- > 0; number /= 10) {
        number += (uint64_t)(decimal[i] - '0');
        sum[i] = (char)('0' + number % 10);
    }
}

static void text_add_spelled(struct text *text, const char *spelling, uint64_t number)
{
    for (; *spelling != '\0'; spelling++)
        if (*spelling == 'N')
            text_add(text, "%" PRIu64, number);
        else
            text_add_bytes(text, spelling, 1);
}

/* Three lines, in which one field of one line is spelled so. */
static void make_text(struct text *text, uint64_t last_length, int bad_line, int bad_field, const char *spelling)
{
    text->length = 0;
    for (int line = 0; line < LINES; line++) {
        const uint64_t numbers[FIELDS] = {7, 3, (uint64_t)line, line < LINES - 1 ? SEGMENT_BYTES : last_length};

        for (int field = 0; field < FIELDS; field++) {
            text_add_spelled(text, line == bad_line && field == bad_field ? spelling : "N", numbers[field]);
            text_add(text, field < FIELDS - 1 ? "\t" : "\n");
        }
    }
}

static void one_field(uint64_t last_length, int line, int field)
{
    const uint64_t due[FIELDS] = {7, 3, (uint64_t)line, line < LINES - 1 ? SEGMENT_BYTES : last_length};
    struct text text;

    for (size_t i = 0; i < sizeof spellings / sizeof *spellings; i++)
        if (case_begins("list number %" PRIu64 " line %d field %d spelling %zu", last_length, line, field, i)) {
            make_text(&text, last_length, line, field, spellings[i]);
            compare_text_read(&text);
        }
    for (size_t i = 0; i < sizeof carries / sizeof *carries; i++)
        if (case_begins("list number %" PRIu64 " line %d field %d carry %zu", last_length, line, field, i)) {
            char sum[40];

            add_decimal(sum, carries[i], due[field]);
            make_text(&text, last_length, line, field, sum);
            compare_text_read(&text);
        }
}

void list_numbers(void)
{
    static const uint64_t last_lengths[] = {1, 100, 65536};

    family_begins("list numbers");
    for (size_t i = 0; i < sizeof last_lengths / sizeof *last_lengths; i++)
        for (int line = 0; line < LINES; line++)
            for (int field = 0; field < FIELDS; field++)
                one_field(last_lengths[i], line, field);
}
