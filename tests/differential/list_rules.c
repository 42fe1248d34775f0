/* Lines that are well spelled, and break the rules of a list: in one number, or in their order. */

#include <inttypes.h>
#include <string.h>

#include "cases.h"
#include "families.h"
#include "list.h"

enum { FIELDS = 4, MOST_LINES = 6, ANY_BREAKS = 3000 };

static const uint64_t last_lengths[] = {100, 65536};

/* The numbers of some lines, in the order of their fields. */
struct lines {
    uint64_t numbers[MOST_LINES + 1][FIELDS];
    size_t count;
};

static struct lines list_of(size_t count, uint64_t last_length)
{
    struct lines lines = {.count = count};

    for (size_t i = 0; i < count; i++) {
        lines.numbers[i][0] = 7310025;
        lines.numbers[i][1] = 12;
        lines.numbers[i][2] = i;
        lines.numbers[i][3] = i + 1 < count ? SEGMENT_BYTES : last_length;
    }
    return lines;
}

static bool compare_lines(const struct lines *lines)
{
    struct text text = {.length = 0};

    for (size_t i = 0; i < lines->count; i++) {
        const uint64_t *n = lines->numbers[i];

        text_add(&text, "%" PRIu64 "\t%" PRIu64 "\t%" PRIu64 "\t%" PRIu64 "\n", n[0], n[1], n[2], n[3]);
    }
    return compare_text_read(&text);
}

/* Every bit of the number turned, then numbers near it, and then those of the rule. */
static void change_number(struct lines *lines, size_t line, size_t field)
{
    static const uint64_t others[] = {0, 1, 9, 10, 65535, 65536, 65537, 131072, 1048575, 1048576, UINT64_MAX};
    uint64_t *number = &lines->numbers[line][field];
    const uint64_t right = *number;
    bool agrees = true;

    for (int bit = 0; bit < 64 && agrees; bit++) {
        *number = right ^ UINT64_C(1) << bit;
        agrees = compare_lines(lines);
    }
    for (uint64_t step = 1; step <= 3 && agrees; step++) {
        *number = right + step;
        agrees = compare_lines(lines);
        *number = right - step;
        agrees = agrees && compare_lines(lines);
    }
    for (size_t i = 0; i < sizeof others / sizeof *others && agrees; i++) {
        *number = others[i];
        agrees = compare_lines(lines);
    }
    *number = right;
}

static void exchange_lines(const struct lines *list, size_t one, size_t other)
{
    struct lines lines = *list;

    for (size_t field = 0; field < FIELDS; field++) {
        lines.numbers[one][field] = list->numbers[other][field];
        lines.numbers[other][field] = list->numbers[one][field];
    }
    compare_lines(&lines);
}

static void leave_out_line(const struct lines *list, size_t line)
{
    struct lines lines = {.count = 0};

    for (size_t i = 0; i < list->count; i++)
        if (i != line) {
            memcpy(lines.numbers[lines.count], list->numbers[i], sizeof list->numbers[i]);
            lines.count++;
        }
    compare_lines(&lines);
}

static void repeat_line(const struct lines *list, size_t line, size_t place)
{
    struct lines lines = {.count = 0};

    for (size_t i = 0; i <= list->count; i++) {
        memcpy(lines.numbers[i], list->numbers[i == place ? line : i < place ? i : i - 1], sizeof list->numbers[0]);
        lines.count++;
    }
    compare_lines(&lines);
}

static void every_order(const struct lines *list)
{
    for (size_t line = 0; line < list->count; line++) {
        leave_out_line(list, line);
        for (size_t other = 0; other < list->count; other++)
            exchange_lines(list, line, other);
        for (size_t place = 0; place <= list->count; place++)
            repeat_line(list, line, place);
    }
}

static void one_list(size_t count, uint64_t last_length)
{
    struct lines lines = list_of(count, last_length);

    if (case_begins("list rule %zu lines, last %" PRIu64 ", orders", count, last_length))
        every_order(&lines);
    for (size_t line = 0; line < count; line++)
        for (size_t field = 0; field < FIELDS; field++)
            if (case_begins("list rule %zu lines, last %" PRIu64 ", line %zu field %zu", count, last_length, line,
                            field))
                change_number(&lines, line, field);
}

/* Several breaks at once: the first of them decides. */
static void some_breaks(int number)
{
    struct prng prng;
    struct lines lines;
    size_t count;

    if (!case_begins("list rule breaks %d", number))
        return;
    prng = case_prng();
    count = 1 + prng_below(&prng, MOST_LINES);
    lines = list_of(count, 1 + prng_below(&prng, SEGMENT_BYTES));
    for (size_t breaks = prng_below(&prng, 4); breaks > 0; breaks--) {
        size_t line = prng_below(&prng, lines.count), field = prng_below(&prng, FIELDS);

        lines.numbers[line][field] =
            prng_below(&prng, 2) == 0 ? prng_below(&prng, SEGMENT_BYTES + 2) : any_number(&prng);
    }
    compare_lines(&lines);
}

void list_rules(void)
{
    family_begins("list rules");
    for (size_t count = 1; count <= MOST_LINES; count++)
        for (size_t i = 0; i < sizeof last_lengths / sizeof *last_lengths; i++)
            one_list(count, last_lengths[i]);
    for (int number = 1; number <= ANY_BREAKS; number++)
        some_breaks(number);
}
