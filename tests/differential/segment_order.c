/* Several refusals of a segment at once: the answer is the first in the order 11, 14, 13, 2, 1, 4, 5, 10. */

#include "cases.h"
#include "families.h"
#include "faults.h"
#include "segment.h"

/* Standing in the order in which their answers are given. */
enum { WIDTH, COMPLETE, SHORT, LENGTH, ROUNDS, KEY, NONCE, NOTE, OUTPUT, TAG, FAULTS };

static const struct fault faults[FAULTS] = {
    [WIDTH] = {"width", BAD_WIDTH},
    [COMPLETE] = {"complete", AFTER_LAST},
    [SHORT] = {"short", BAD_SEGMENT},
    [LENGTH] = {"length", BAD_SEGMENT},
    [ROUNDS] = {"rounds", BAD_ROUNDS},
    [KEY] = {"key", BAD_KEY_OR_NONCE},
    [NONCE] = {"nonce", BAD_KEY_OR_NONCE},
    [NOTE] = {"note", OVER_LIMIT},
    [OUTPUT] = {"output", BAD_OUTPUT},
    [TAG] = {"tag", BAD_TAG},
};

/* A short text has no tag to spoil; sealing has neither of the two, and no job that is complete. */
static bool is_possible(enum operation operation, unsigned set)
{
    if (operation == SEGMENT_SEAL)
        return !has(set, SHORT) && !has(set, TAG) && !has(set, COMPLETE);
    return !(has(set, SHORT) && has(set, TAG));
}

/* The index too high, the highest not flagged, or a short segment not flagged; the text itself may stay as it is. */
static void spoil_length(struct place *place, struct prng *prng)
{
    switch (prng_below(prng, 3)) {
    case 0:
        place->index += LAST_INDEX + 1;
        break;
    case 1:
        place->index = LAST_INDEX;
        place->last = 0;
        break;
    default:
        place->last = 0;
    }
}

static void spoil(struct call *call, unsigned set, struct prng *prng)
{
    if (has(set, SHORT)) {
        call->body.length = prng_below(prng, call->key.length);
        call->out_len = 0;
    }
    if (has(set, LENGTH))
        spoil_length(&call->place, prng);
    if (has(set, COMPLETE))
        call->place.complete = yes[prng_below(prng, YESES)];
    if (has(set, WIDTH))
        call->width += 1 + (uint32_t)prng_below(prng, 31);
    if (has(set, ROUNDS))
        call->rounds = 7 + (uint32_t)prng_below(prng, 250);
    if (has(set, KEY))
        call->key.length = other_length(call->key.length, prng);
    if (has(set, NONCE))
        call->nonce.length = other_length(call->nonce.length, prng);
    if (has(set, NOTE))
        call->header.length = NOTE_LIMIT + 1;
    if (has(set, OUTPUT))
        call->out_len = other_length(call->out_len, prng);
}

static void one_set(struct message *message, struct instance instance, enum operation operation, unsigned set)
{
    char names[100];
    struct prng prng;
    struct call call;

    join_names(names, faults, FAULTS, set);
    if (!case_begins("refusals %s %u %u %s", operation_name(operation), instance.width, instance.rounds, names))
        return;
    prng = case_prng();
    small_segment(message, instance, &prng);
    if (has(set, TAG))
        message->sealed[sealed_length(message) - 1] ^= 0x40;
    call = segment_call(message, operation);
    spoil(&call, set, &prng);
    compare_call(&call, first_answer(faults, FAULTS, set));
}

void segment_refusals_at_once(struct message *message)
{
    family_begins("segment refusals at once");
    for (int i = 0; i < INSTANCES; i++)
        for (enum operation operation = SEGMENT_SEAL; operation <= SEGMENT_OPEN; operation++)
            for (unsigned set = 1; set < 1u << FAULTS; set++)
                if (is_possible(operation, set))
                    one_set(message, instances[i], operation, set);
}
