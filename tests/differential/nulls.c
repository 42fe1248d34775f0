/* A null pointer with length 0 is an empty slice. */

#include "cases.h"
#include "families.h"

static const struct bytes nothing = {NULL, 0};

enum { HEADER = 1, BODY = 2, TRAILER = 4, ALL_PARTS = 7 };

/* Parts in the set are empty, and in the calls they are null. */
static void empty_parts(struct message *message, struct instance instance, unsigned set)
{
    struct prng prng;
    struct lengths lengths;
    struct call seal, open;

    if (!case_begins("null %u %u parts %u", instance.width, instance.rounds, set))
        return;
    prng = case_prng();
    lengths.header = set & HEADER ? 0 : 1 + prng_below(&prng, 200);
    lengths.body = set & BODY ? 0 : 1 + prng_below(&prng, 200);
    lengths.trailer = set & TRAILER ? 0 : 1 + prng_below(&prng, 200);
    message_fill(message, instance, lengths, &prng);
    seal = seal_call(message);
    open = open_call(message);
    if (set & HEADER)
        seal.header = open.header = nothing;
    if (set & TRAILER)
        seal.trailer = open.trailer = nothing;
    if (set & BODY) {
        seal.body = nothing;
        open.out_is_null = true;
    }
    compare_call(&seal, DONE);
    compare_output(message->sealed, sealed_length(message));
    compare_call(&open, DONE);
    compare_output(message->body, lengths.body);
}

/* An empty body opened with a wrong tag has no byte to clear. */
static void nothing_to_clear(struct message *message, struct instance instance)
{
    struct prng prng;
    struct call open;

    if (!case_begins("null %u %u cleared", instance.width, instance.rounds))
        return;
    prng = case_prng();
    message_fill(message, instance, (struct lengths){0, 0, 0}, &prng);
    message->sealed[0] ^= 1;
    open = open_call(message);
    open.header = open.trailer = nothing;
    open.out_is_null = true;
    compare_call(&open, BAD_TAG);
}

static void refused(struct message *message, struct instance instance, enum operation operation, const char *what,
                    uint32_t answer)
{
    struct prng prng;
    struct call call;

    if (!case_begins("null %u %u %s refused for its %s", instance.width, instance.rounds, operation_name(operation),
                     what))
        return;
    prng = case_prng();
    message_fill(message, instance, (struct lengths){10, 10, 10}, &prng);
    call = operation == SEAL ? seal_call(message) : open_call(message);
    call.out_is_null = true;
    call.out_len = 0;
    if (answer == BAD_KEY_OR_NONCE || answer == BAD_WIDTH)
        call.key = call.nonce = nothing;
    if (answer == TOO_SHORT || answer == BAD_WIDTH)
        call.body = nothing;
    if (answer == BAD_WIDTH)
        call.width = call.rounds = 0;
    compare_call(&call, answer);
}

void null_pointers(struct message *message)
{
    family_begins("null pointers");
    for (int i = 0; i < INSTANCES; i++) {
        for (unsigned set = 1; set <= ALL_PARTS; set++)
            empty_parts(message, instances[i], set);
        nothing_to_clear(message, instances[i]);
        for (enum operation operation = SEAL; operation <= OPEN; operation++) {
            refused(message, instances[i], operation, "width", BAD_WIDTH);
            refused(message, instances[i], operation, "key and nonce", BAD_KEY_OR_NONCE);
            refused(message, instances[i], operation, "output", BAD_OUTPUT);
        }
        refused(message, instances[i], OPEN, "short text", TOO_SHORT);
    }
}
