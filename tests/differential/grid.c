/* Every combination of lengths around the rate. */

#include "cases.h"
#include "families.h"

enum { LENGTHS = 8 };

static void one_combination(struct message *message, struct instance instance, struct lengths lengths)
{
    struct prng prng;

    if (!case_begins("grid %u %u %zu %zu %zu", instance.width, instance.rounds, lengths.header, lengths.body,
                     lengths.trailer))
        return;
    prng = case_prng();
    message_fill(message, instance, lengths, &prng);
    compare_there_and_back(message);
}

static void one_instance(struct message *message, struct instance instance)
{
    size_t rate = rate_of(instance);
    const size_t around[LENGTHS] = {0, 1, rate - 1, rate, rate + 1, 2 * rate - 1, 2 * rate, 2 * rate + 1};

    for (int header = 0; header < LENGTHS; header++)
        for (int body = 0; body < LENGTHS; body++)
            for (int trailer = 0; trailer < LENGTHS; trailer++)
                one_combination(message, instance, (struct lengths){around[header], around[body], around[trailer]});
}

void lengths_around_the_rate(struct message *message)
{
    family_begins("grid");
    for (int i = 0; i < INSTANCES; i++)
        one_instance(message, instances[i]);
}
