/* The rule on lengths: around each edge, at each kind of index, with and without the flag. */

#include <inttypes.h>

#include "cases.h"
#include "families.h"
#include "segment.h"

/* The lengths that are right: from the least to the most; none where the least is over the most. */
struct rule {
    uint64_t index;
    uint32_t last;
    size_t least, most;
};

static const struct rule rules[] = {
    {0, 0, SEGMENT_BYTES, SEGMENT_BYTES},
    {0, 1, 0, SEGMENT_BYTES},
    {1, 0, SEGMENT_BYTES, SEGMENT_BYTES},
    {1, 1, 1, SEGMENT_BYTES},
    {1048574, 0, SEGMENT_BYTES, SEGMENT_BYTES},
    {1048574, 1, 1, SEGMENT_BYTES},
    {1048575, 0, 1, 0},
    {1048575, 1, 1, SEGMENT_BYTES},
    {1048576, 0, 1, 0},
    {1048576, 1, 1, 0},
    {UINT64_C(1) << 31, 0, 1, 0},
    {UINT64_C(1) << 32, 0, 1, 0},
    {UINT64_C(1) << 32, 1, 1, 0},
    {(UINT64_C(1) << 32) + 1, 0, 1, 0},
    {UINT64_C(1) << 63, 0, 1, 0},
    {UINT64_C(1) << 63, 1, 1, 0},
    {(UINT64_C(1) << 63) + 1, 1, 1, 0},
    {UINT64_MAX, 0, 1, 0},
    {UINT64_MAX, 1, 1, 0},
};

static void one_length(struct message *message, struct instance instance, const struct rule *rule, size_t length)
{
    bool is_right = length >= rule->least && length <= rule->most;
    struct prng prng;
    struct call seal, open;

    if (!case_begins("segment length %u %u %" PRIu64 " last %u length %zu", instance.width, instance.rounds,
                     rule->index, rule->last, length))
        return;
    prng = case_prng();
    segment_fill(message, instance, place_at(rule->index, rule->last, &prng), prng_below(&prng, 100), length, &prng);
    if (is_right) {
        compare_segment_there_and_back(message);
        return;
    }
    seal = segment_call(message, SEGMENT_SEAL);
    compare_call(&seal, BAD_SEGMENT);
    open = segment_call(message, SEGMENT_OPEN);
    compare_call(&open, BAD_SEGMENT);
}

/* A sealed text counts without its tag, so lengths a tag away from an edge are tried too. */
static void one_rule(struct message *message, struct instance instance, const struct rule *rule)
{
    size_t tag = tag_length(instance);
    const size_t lengths[] = {0,
                              1,
                              2,
                              tag - 1,
                              tag,
                              tag + 1,
                              SEGMENT_BYTES - tag,
                              SEGMENT_BYTES - 1,
                              SEGMENT_BYTES,
                              SEGMENT_BYTES + 1,
                              SEGMENT_BYTES + tag,
                              2 * SEGMENT_BYTES};

    for (size_t i = 0; i < sizeof lengths / sizeof *lengths; i++)
        one_length(message, instance, rule, lengths[i]);
}

void segment_lengths(struct message *message)
{
    family_begins("segment lengths");
    for (int i = 0; i < INSTANCES; i++)
        for (size_t rule = 0; rule < sizeof rules / sizeof *rules; rule++)
            one_rule(message, instances[i], &rules[rule]);
}
