/* Texts that are one step away from a list, at every place of it; some of them are lists again. */

#include "cases.h"
#include "families.h"
#include "list.h"

enum { EVERY_BYTE_UP_TO = 30, LONGEST_STRETCH = 12, FARTHEST = 24 };

static const char near_bytes[] = "0123456789\t\n\r +-./:,eEx\0\x7f\x80\xff";

static const struct listed lists[] = {
    {0, 0, 0},
    {7, 3, 65636},
    {10, 99, 131072},
    {1, 18446744073709551615u, 196607},
    {18446744073709551610u, 0, 65545},
    {5, 21, 10 * 65536 + 12345},
};

/* The list up to a place, then other bytes, and then the list from another place on. */
static bool compare_patched(const struct text *list, size_t up_to, const char *between, size_t length, size_t from)
{
    struct text text = {.length = 0};

    text_add_bytes(&text, list->bytes, up_to);
    text_add_bytes(&text, between, length);
    text_add_bytes(&text, list->bytes + from, list->length - from);
    return compare_text_read(&text);
}

static void change_to(const struct text *list, size_t place, const char *others, size_t count)
{
    for (size_t i = 0; i < count; i++)
        if (others[i] != list->bytes[place] && !compare_patched(list, place, &others[i], 1, place + 1))
            return;
}

/* Every other byte in the shorter lists, and in the others those that come near to a list. */
static void change(const struct text *list, size_t place)
{
    char every[256];

    for (int i = 0; i < 256; i++)
        every[i] = (char)i;
    if (list->length <= EVERY_BYTE_UP_TO)
        change_to(list, place, every, sizeof every);
    else
        change_to(list, place, near_bytes, sizeof near_bytes - 1);
}

static void drop(const struct text *list, size_t place)
{
    for (size_t count = 1; count <= LONGEST_STRETCH && place + count <= list->length; count++)
        if (!compare_patched(list, place, "", 0, place + count))
            return;
}

static void repeat(const struct text *list, size_t place)
{
    for (size_t count = 1; count <= LONGEST_STRETCH && place + count <= list->length; count++)
        if (!compare_patched(list, place, list->bytes + place, count, place))
            return;
}

static void insert(const struct text *list, size_t place)
{
    for (size_t i = 0; i < sizeof near_bytes - 1; i++)
        if (!compare_patched(list, place, &near_bytes[i], 1, place))
            return;
}

static void swap(const struct text *list, size_t place)
{
    for (size_t other = place + 1; other < list->length && other <= place + FARTHEST; other++) {
        struct text text = *list;

        text.bytes[place] = list->bytes[other];
        text.bytes[other] = list->bytes[place];
        if (!compare_text_read(&text))
            return;
    }
}

struct damage {
    const char *name;
    void (*at)(const struct text *list, size_t place);
};

static const struct damage damages[] = {
    {"changed", change}, {"dropped", drop}, {"repeated", repeat}, {"inserted", insert}, {"swapped", swap},
};

static void every_place(size_t number, const struct damage *damage)
{
    struct text list = {.length = 0};

    text_add_list(&list, &lists[number]);
    for (size_t place = 0; place < list.length; place++)
        if (case_begins("list %zu %s at %zu", number, damage->name, place))
            damage->at(&list, place);
}

void damaged_lists(void)
{
    family_begins("damaged lists");
    for (size_t number = 0; number < sizeof lists / sizeof *lists; number++)
        for (size_t kind = 0; kind < sizeof damages / sizeof *damages; kind++)
            every_place(number, &damages[kind]);
}
