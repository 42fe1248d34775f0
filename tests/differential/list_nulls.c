/* A null pointer with length 0 is an empty text, in calls on lists too. */

#include <inttypes.h>

#include "cases.h"
#include "families.h"
#include "list.h"

static void written_to_null(uint64_t length, uint32_t answer)
{
    struct listed listed = {7, 3, length};

    if (case_begins("list null output of length %" PRIu64, length))
        compare_list_write_to_null(&listed, answer);
}

void list_null_pointers(void)
{
    family_begins("list null pointers");
    if (case_begins("list null text"))
        compare_long_list_read((struct bytes){NULL, 0}, (struct reference_list){.bad = 1});
    written_to_null(0, BAD_OUTPUT);
    written_to_null(100, BAD_OUTPUT);
    written_to_null(list_body_limit, BAD_OUTPUT);
    written_to_null(list_body_limit + 1, OVER_LIMIT);
    written_to_null(UINT64_MAX, OVER_LIMIT);
}
