/* The runs of P where the counts of a session are known and its bytes are not: as many zeros are sealed. */

#include "runs.h"

#include <string.h>

enum { REMEMBERED = 4096 };

struct counted {
    uint32_t width;
    uint64_t counts[PARTS];
    uint32_t runs;
};

/* The latest, for a long body takes its time. */
static struct counted remembered[REMEMBERED];
static size_t counted_so_far;

static uint32_t count_runs(uint32_t width, const uint64_t counts[PARTS])
{
    static struct buffer zeros, sealed;
    size_t tag = tag_length(width);

    if (zeros.length == 0) {
        buffer_fill(&zeros, 0, part_limits[BODY]);
        buffer_fill(&sealed, 0, part_limits[BODY] + LONGEST_TAG);
    }
    return reference_seal(width, 4, zeros.at, tag, zeros.at, tag, zeros.at, FRONT_BYTES + counts[NOTE], zeros.at,
                          counts[BODY], zeros.at, counts[TRAILER], sealed.at, counts[BODY] + tag).runs;
}

static const struct counted *recall(uint32_t width, const uint64_t counts[PARTS])
{
    for (size_t i = 0; i < counted_so_far && i < REMEMBERED; i++)
        if (remembered[i].width == width && memcmp(remembered[i].counts, counts, sizeof remembered[i].counts) == 0)
            return &remembered[i];
    return NULL;
}

uint32_t runs_by_counts(uint32_t width, const uint64_t counts[PARTS])
{
    const struct counted *known = recall(width, counts);
    struct counted *next = &remembered[counted_so_far % REMEMBERED];

    if (known != NULL)
        return known->runs;
    *next = (struct counted){width, {counts[NOTE], counts[BODY], counts[TRAILER]}, count_runs(width, counts)};
    counted_so_far++;
    return next->runs;
}
