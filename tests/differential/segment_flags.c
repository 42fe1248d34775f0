/* Of last and complete 0 is no, and every other number yes. */

#include "cases.h"
#include "families.h"
#include "segment.h"

/* Sealed under one yes, opened under another: the reference's text is that of 1. */
static void one_last(struct message *message, struct instance instance, size_t body_length, uint32_t last)
{
    struct prng prng;
    struct call open;

    if (!case_begins("segment flag %u %u last %u length %zu", instance.width, instance.rounds, last, body_length))
        return;
    prng = case_prng();
    segment_fill(message, instance, place_at(prng_below(&prng, LAST_INDEX), yes[0], &prng), 20, body_length, &prng);
    message->place.last = last;
    compare_segment_there_and_back(message);
    open = segment_call(message, SEGMENT_OPEN);
    open.place.last = 0;
    compare_call(&open, body_length == SEGMENT_BYTES ? BAD_TAG : BAD_SEGMENT);
}

/* A complete job takes no segment, however good it is, and wherever it stands. */
static void one_complete(struct message *message, struct instance instance, uint32_t complete, uint64_t index,
                         uint32_t last)
{
    struct prng prng;
    struct call open;

    if (!case_begins("segment flag %u %u complete %u last %u at %d", instance.width, instance.rounds, complete, last,
                     (int)index))
        return;
    prng = case_prng();
    segment_fill(message, instance, place_at(index, last, &prng), 20, SEGMENT_BYTES, &prng);
    message->place.complete = complete;
    open = segment_call(message, SEGMENT_OPEN);
    compare_call(&open, AFTER_LAST);
}

void segment_flags(struct message *message)
{
    family_begins("segment flags");
    for (int i = 0; i < INSTANCES; i++)
        for (int flag = 0; flag < YESES; flag++) {
            one_last(message, instances[i], 1, yes[flag]);
            one_last(message, instances[i], SEGMENT_BYTES, yes[flag]);
            for (uint32_t last = 0; last <= 1; last++) {
                one_complete(message, instances[i], yes[flag], 0, last);
                one_complete(message, instances[i], yes[flag], 5, last);
                one_complete(message, instances[i], yes[flag], LAST_INDEX, last);
            }
        }
}
