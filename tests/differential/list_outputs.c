/* Refusals of writing: a body over its limit is answered 4, and then an output of another length 5. */

#include <inttypes.h>

#include "cases.h"
#include "families.h"
#include "list.h"

enum { REPEATS = 40 };

/* None of them is the list's own length, which is at least 8. */
static void other_outputs(const struct listed *listed)
{
    size_t length = list_length(listed);
    const size_t others[] = {0, 1, length / 2, length - 8, length - 1, length + 1, length + 2, 2 * length};

    for (size_t i = 0; i < sizeof others / sizeof *others; i++)
        compare_list_write(listed, others[i], BAD_OUTPUT);
}

static void one_job(uint64_t length, int repeat)
{
    struct prng prng;
    struct listed listed;

    if (!case_begins("list output of length %" PRIu64 " %d", length, repeat))
        return;
    prng = case_prng();
    listed = any_edition(&prng);
    listed.length = length;
    other_outputs(&listed);
    compare_list_write(&listed, list_length(&listed), DONE);
}

/* The lengths that the list of a body of fewer bits would have are among the outputs. */
static void one_over_limit(uint64_t length)
{
    struct listed listed = {7, 3, length}, cut = {7, 3, length % 65536};
    const size_t outputs[] = {0, 1, 8, 10, 12, list_length(&cut), 4096};

    if (!case_begins("list over the limit %" PRIu64, length))
        return;
    compare_list_length(&listed, 0);
    for (size_t i = 0; i < sizeof outputs / sizeof *outputs; i++)
        compare_list_write(&listed, outputs[i], OVER_LIMIT);
}

void list_outputs(void)
{
    static const uint64_t lengths[] = {0, 1, 65535, 65536, 65537, 65636, 131072, 655360, 6553600};
    const uint64_t over[] = {
        list_body_limit + 1, list_body_limit + 65535,  list_body_limit + 65536, 2 * list_body_limit, UINT64_C(1) << 48,
        UINT64_C(1) << 63,   UINT64_MAX - 65536,       UINT64_MAX - 65535,      UINT64_MAX - 65534,  UINT64_MAX - 1,
        UINT64_MAX,          (UINT64_C(1) << 63) + 100};

    family_begins("list outputs");
    for (size_t i = 0; i < sizeof lengths / sizeof *lengths; i++)
        for (int repeat = 1; repeat <= REPEATS; repeat++)
            one_job(lengths[i], repeat);
    for (size_t i = 0; i < sizeof over / sizeof *over; i++)
        one_over_limit(over[i]);
}
