/* Random messages, sealed and opened. */

#include "cases.h"
#include "families.h"

enum { MESSAGES = 4000 };

void random_messages(struct message *message)
{
    family_begins("random");
    for (int i = 1; i <= MESSAGES; i++) {
        struct instance instance = instances[i % INSTANCES];
        struct prng prng;

        if (!case_begins("random %u %u %d", instance.width, instance.rounds, i))
            continue;
        prng = case_prng();
        message_fill(message, instance, random_lengths(instance, &prng), &prng);
        compare_there_and_back(message);
    }
}
