/* Each part at its limit and one byte over it. */

#include "cases.h"
#include "families.h"

struct limit {
    const char *name;
    struct lengths lengths;
    uint32_t answer;
};

static const struct limit limits[] = {
    {"header 65536", {EDGE_LIMIT, 100, 100}, DONE},
    {"header 65537", {EDGE_LIMIT + 1, 100, 100}, OVER_LIMIT},
    {"trailer 65536", {100, 100, EDGE_LIMIT}, DONE},
    {"trailer 65537", {100, 100, EDGE_LIMIT + 1}, OVER_LIMIT},
    {"body 16777216", {100, BODY_LIMIT, 100}, DONE},
    {"body 16777217", {100, BODY_LIMIT + 1, 100}, OVER_LIMIT},
    {"header and trailer 65536", {EDGE_LIMIT, 0, EDGE_LIMIT}, DONE},
    {"header and trailer 65537", {EDGE_LIMIT + 1, 0, EDGE_LIMIT + 1}, OVER_LIMIT},
};

static void one_limit(struct message *message, struct instance instance, const struct limit *limit)
{
    struct prng prng;
    struct call seal, open;

    if (!case_begins("limit %u %u %s", instance.width, instance.rounds, limit->name))
        return;
    prng = case_prng();
    message_fill(message, instance, limit->lengths, &prng);
    seal = seal_call(message);
    compare_call(&seal, limit->answer);
    open = open_call(message);
    compare_call(&open, limit->answer);
    if (limit->answer == DONE)
        compare_output(message->body, message->lengths.body);
}

/* A wrong tag has to clear the longest output to its last byte. */
static void longest_cleared(struct message *message, struct instance instance)
{
    struct prng prng;
    struct call open;

    if (!case_begins("limit %u %u body 16777216 damaged", instance.width, instance.rounds))
        return;
    prng = case_prng();
    message_fill(message, instance, (struct lengths){0, BODY_LIMIT, 0}, &prng);
    message->sealed[BODY_LIMIT] ^= 1;
    open = open_call(message);
    compare_call(&open, BAD_TAG);
}

void parts_at_their_limits(struct message *message)
{
    family_begins("limits");
    for (int i = 0; i < INSTANCES; i++) {
        for (size_t limit = 0; limit < sizeof limits / sizeof *limits; limit++)
            one_limit(message, instances[i], &limits[limit]);
        longest_cleared(message, instances[i]);
    }
}
