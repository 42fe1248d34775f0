/* Several refusals at once: the answer is the first in the order 11, 2, 1, 3, 4, 5, 10. */

#include "cases.h"
#include "families.h"
#include "faults.h"

/* Standing in the order in which their answers are given. */
enum { WIDTH, ROUNDS, KEY, NONCE, SHORT, HEADER, BODY, TRAILER, OUTPUT, TAG, FAULTS };

static const struct fault faults[FAULTS] = {
    [WIDTH] = {"width", BAD_WIDTH},
    [ROUNDS] = {"rounds", BAD_ROUNDS},
    [KEY] = {"key", BAD_KEY_OR_NONCE},
    [NONCE] = {"nonce", BAD_KEY_OR_NONCE},
    [SHORT] = {"short", TOO_SHORT},
    [HEADER] = {"header", OVER_LIMIT},
    [BODY] = {"body", OVER_LIMIT},
    [TRAILER] = {"trailer", OVER_LIMIT},
    [OUTPUT] = {"output", BAD_OUTPUT},
    [TAG] = {"tag", BAD_TAG},
};

/* A short text has no tag to spoil and no body to be too long; sealing has neither of the two. */
static bool is_possible(enum operation operation, unsigned set)
{
    if (operation == SEAL)
        return !has(set, SHORT) && !has(set, TAG);
    return !(has(set, SHORT) && (has(set, TAG) || has(set, BODY)));
}

static struct lengths lengths_with(unsigned set, struct prng *prng)
{
    struct lengths lengths;

    lengths.header = has(set, HEADER) ? EDGE_LIMIT + 1 : prng_below(prng, 200);
    lengths.body = has(set, BODY) ? BODY_LIMIT + 1 : prng_below(prng, 200);
    lengths.trailer = has(set, TRAILER) ? EDGE_LIMIT + 1 : prng_below(prng, 200);
    return lengths;
}

static void spoil(struct call *call, unsigned set, size_t tag, struct prng *prng)
{
    if (has(set, WIDTH))
        call->width += 1 + (uint32_t)prng_below(prng, 31);
    if (has(set, ROUNDS))
        call->rounds = 7 + (uint32_t)prng_below(prng, 250);
    if (has(set, KEY))
        call->key.length = other_length(tag, prng);
    if (has(set, NONCE))
        call->nonce.length = other_length(tag, prng);
    if (has(set, SHORT)) {
        call->body.length = prng_below(prng, tag);
        call->out_len = 0;
    }
    if (has(set, OUTPUT))
        call->out_len = other_length(call->out_len, prng);
}

static void one_set(struct message *message, struct instance instance, enum operation operation, unsigned set)
{
    char names[100];
    struct prng prng;
    struct call call;

    join_names(names, faults, FAULTS, set);
    if (!case_begins("refusals %s %u %u %s", operation_name(operation), instance.width, instance.rounds, names))
        return;
    prng = case_prng();
    message_fill(message, instance, lengths_with(set, &prng), &prng);
    if (has(set, TAG))
        message->sealed[sealed_length(message) - 1] ^= 0x40;
    call = operation == SEAL ? seal_call(message) : open_call(message);
    spoil(&call, set, tag_length(instance), &prng);
    compare_call(&call, first_answer(faults, FAULTS, set));
}

/* All sets without the body over its limit, which would take too long. */
static void all_sets(struct message *message, struct instance instance, enum operation operation)
{
    for (unsigned set = 1; set < 1u << FAULTS; set++)
        if (!has(set, BODY) && is_possible(operation, set))
            one_set(message, instance, operation, set);
}

static void body_with_each(struct message *message, struct instance instance, enum operation operation)
{
    for (int other = 0; other < FAULTS; other++)
        if (is_possible(operation, only(BODY) | only(other)))
            one_set(message, instance, operation, only(BODY) | only(other));
}

void refusals_at_once(struct message *message)
{
    family_begins("refusals at once");
    for (int i = 0; i < INSTANCES; i++)
        for (enum operation operation = SEAL; operation <= OPEN; operation++) {
            all_sets(message, instances[i], operation);
            if (instances[i].rounds == 4)
                body_with_each(message, instances[i], operation);
        }
}
