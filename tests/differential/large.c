/* Bodies of some KiB with longer headers and trailers. */

#include "cases.h"
#include "families.h"

enum { REPEATS = 24, LARGEST_BODY = 65536, LARGEST_EDGE = 4096 };

static void one_large_body(struct message *message, struct instance instance, int repeat)
{
    struct prng prng;
    struct lengths lengths;
    struct call open;
    size_t place;

    if (!case_begins("large %u %u %d", instance.width, instance.rounds, repeat))
        return;
    prng = case_prng();
    lengths.header = prng_below(&prng, LARGEST_EDGE);
    lengths.body = 1024 + prng_below(&prng, LARGEST_BODY - 1024);
    lengths.trailer = prng_below(&prng, LARGEST_EDGE);
    message_fill(message, instance, lengths, &prng);
    compare_there_and_back(message);
    place = prng_below(&prng, sealed_length(message));
    message->sealed[place] ^= (uint8_t)(1 << prng_below(&prng, 8));
    open = open_call(message);
    compare_call(&open, BAD_TAG);
}

void large_bodies(struct message *message)
{
    family_begins("large");
    for (int i = 0; i < INSTANCES; i++)
        for (int repeat = 1; repeat <= REPEATS; repeat++)
            one_large_body(message, instances[i], repeat);
}
