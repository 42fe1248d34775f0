/* Lengths of the body: around each multiple of a segment, where a number gets one digit more, and large ones. */

#include <inttypes.h>

#include "cases.h"
#include "families.h"
#include "list.h"

enum { LARGE_LENGTHS = 100 };

static void one_length(uint64_t job, uint64_t revision, uint64_t length)
{
    struct listed listed = {job, revision, length};

    if (!case_begins("list length %" PRIu64 " job %" PRIu64 " revision %" PRIu64, length, job, revision))
        return;
    compare_list_there_and_back(&listed);
}

static void around_segments(uint64_t segments)
{
    static const int64_t away[] = {-10000, -1, 0, 1, 2, 9, 10, 99, 100, 999, 1000, 9999, 10000};

    for (size_t i = 0; i < sizeof away / sizeof *away; i++)
        if (segments > 0 || away[i] >= 0) {
            one_length(7, 3, segments * SEGMENT_BYTES + (uint64_t)away[i]);
            one_length(UINT64_MAX, 10, segments * SEGMENT_BYTES + (uint64_t)away[i]);
        }
}

/* Where the list would be long its length alone is compared. */
static void one_large_length(int number)
{
    struct prng prng;
    struct listed listed;

    if (!case_begins("list length large %d", number))
        return;
    prng = case_prng();
    listed = any_edition(&prng);
    listed.length = prng_next(&prng) % (list_body_limit + 1);
    compare_list_length(&listed, list_length(&listed));
}

void list_lengths(void)
{
    static const uint64_t more_segments[] = {16, 99, 100, 101, 255, 256, 257, 999, 1000, 1001};

    family_begins("list lengths");
    for (uint64_t segments = 0; segments <= 12; segments++)
        around_segments(segments);
    for (size_t i = 0; i < sizeof more_segments / sizeof *more_segments; i++)
        around_segments(more_segments[i]);
    for (uint64_t length = 10000 * SEGMENT_BYTES - 1; length <= 10000 * SEGMENT_BYTES + 1; length++)
        one_length(7310025, 12, length);
    one_length(7310025, 12, UINT64_C(100000) * SEGMENT_BYTES + 1);
    for (int number = 1; number <= LARGE_LENGTHS; number++)
        one_large_length(number);
}
