/* The job's note: around the rate, where the numbers in front fill a part of the first block, and at its limit. */

#include "cases.h"
#include "families.h"
#include "segment.h"

static void one_note(struct message *message, struct instance instance, size_t length)
{
    struct prng prng;
    struct call seal, open;

    if (!case_begins("segment note %u %u %zu", instance.width, instance.rounds, length))
        return;
    prng = case_prng();
    segment_fill(message, instance, place_at(3, 1, &prng), length, 1 + prng_below(&prng, 200), &prng);
    if (length <= NOTE_LIMIT) {
        compare_segment_there_and_back(message);
        return;
    }
    seal = segment_call(message, SEGMENT_SEAL);
    compare_call(&seal, OVER_LIMIT);
    open = segment_call(message, SEGMENT_OPEN);
    compare_call(&open, OVER_LIMIT);
}

void segment_notes(struct message *message)
{
    family_begins("segment notes");
    for (int i = 0; i < INSTANCES; i++) {
        size_t rate = rate_of(instances[i]);
        const size_t lengths[] = {0,        1,        rate - 17,      rate - 16,  rate - 15,      rate,
                                  rate + 1, 2 * rate, NOTE_LIMIT - 1, NOTE_LIMIT, NOTE_LIMIT + 1, EDGE_LIMIT,
                                  EDGE_LIMIT + 1};

        for (size_t note = 0; note < sizeof lengths / sizeof *lengths; note++)
            one_note(message, instances[i], lengths[note]);
    }
}
