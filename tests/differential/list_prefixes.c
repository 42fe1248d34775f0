/* Every beginning of a list, read where it stands, with the rest of the list behind it; and every end of one. */

#include "cases.h"
#include "families.h"
#include "list.h"
#include "list_definition.h"

static const struct listed lists[] = {
    {0, 0, 0}, {7, 3, 65636}, {18446744073709551615u, 18446744073709551615u, 131072}, {42, 7, 12 * 65536 + 1}};

static void one_stretch(struct bytes stretch)
{
    compare_list_read(stretch, list_by_definition(stretch));
}

static void one_list(size_t number)
{
    struct text list = {.length = 0};
    const uint8_t *bytes = (const uint8_t *)list.bytes;

    text_add_list(&list, &lists[number]);
    for (size_t length = 0; length <= list.length; length++) {
        if (case_begins("list %zu, its first %zu bytes", number, length))
            one_stretch((struct bytes){bytes, length});
        if (case_begins("list %zu, its last %zu bytes", number, length))
            one_stretch((struct bytes){bytes + list.length - length, length});
    }
}

void list_prefixes(void)
{
    family_begins("list prefixes");
    for (size_t number = 0; number < sizeof lists / sizeof *lists; number++)
        one_list(number);
}
