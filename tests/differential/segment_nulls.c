/* A null pointer with length 0 is an empty text, in calls on segments too. */

#include "cases.h"
#include "families.h"
#include "segment.h"

static const struct bytes nothing = {NULL, 0};

enum { NOTE = 1, BODY = 2, BOTH = 3 };

/* Note and body in the set are empty, and in the calls they are null; an empty body is that of an empty job. */
static void empty_parts(struct message *message, struct instance instance, unsigned set)
{
    struct prng prng;
    struct call seal, open;

    if (!case_begins("segment null %u %u parts %u", instance.width, instance.rounds, set))
        return;
    prng = case_prng();
    segment_fill(message, instance, place_at(0, 1, &prng), set & NOTE ? 0 : 50, set & BODY ? 0 : 100, &prng);
    seal = segment_call(message, SEGMENT_SEAL);
    open = segment_call(message, SEGMENT_OPEN);
    if (set & NOTE)
        seal.header = open.header = nothing;
    if (set & BODY) {
        seal.body = nothing;
        open.out_is_null = true;
    }
    compare_call(&seal, DONE);
    compare_output(message->sealed, sealed_length(message));
    compare_call(&open, DONE);
    compare_output(message->body, message->lengths.body);
}

/* An empty job opened with a wrong tag has no byte to clear. */
static void nothing_to_clear(struct message *message, struct instance instance)
{
    struct prng prng;
    struct call open;

    if (!case_begins("segment null %u %u cleared", instance.width, instance.rounds))
        return;
    prng = case_prng();
    segment_fill(message, instance, place_at(0, 1, &prng), 0, 0, &prng);
    message->sealed[0] ^= 1;
    open = segment_call(message, SEGMENT_OPEN);
    open.header = nothing;
    open.out_is_null = true;
    compare_call(&open, BAD_TAG);
}

static void refused(struct message *message, struct instance instance, enum operation operation, const char *what,
                    uint32_t answer)
{
    struct prng prng;
    struct call call;

    if (!case_begins("segment null %u %u %s refused for its %s", instance.width, instance.rounds,
                     operation_name(operation), what))
        return;
    prng = case_prng();
    segment_fill(message, instance, place_at(1, 1, &prng), 10, 10, &prng);
    call = segment_call(message, operation);
    call.out_is_null = true;
    call.out_len = 0;
    if (answer != BAD_OUTPUT)
        call.key = call.nonce = call.header = nothing;
    if (answer == BAD_SEGMENT || answer == AFTER_LAST || answer == BAD_WIDTH)
        call.body = nothing;
    if (answer == AFTER_LAST)
        call.place.complete = 1;
    if (answer == BAD_WIDTH)
        call.width = call.rounds = 0;
    compare_call(&call, answer);
}

void segment_null_pointers(struct message *message)
{
    family_begins("segment null pointers");
    for (int i = 0; i < INSTANCES; i++) {
        for (unsigned set = NOTE; set <= BOTH; set++)
            empty_parts(message, instances[i], set);
        nothing_to_clear(message, instances[i]);
        for (enum operation operation = SEGMENT_SEAL; operation <= SEGMENT_OPEN; operation++) {
            refused(message, instances[i], operation, "width", BAD_WIDTH);
            refused(message, instances[i], operation, "length", BAD_SEGMENT);
            refused(message, instances[i], operation, "key and nonce", BAD_KEY_OR_NONCE);
            refused(message, instances[i], operation, "output", BAD_OUTPUT);
        }
        refused(message, instances[i], SEGMENT_OPEN, "place after the last", AFTER_LAST);
    }
}
