/* Segments with random content, and the calls that seal and open them. */

#include "segment.h"

#include "segments.h"

const uint32_t yes[YESES] = {1, 2, 0x100, 0x10000, 0x80000000, UINT32_MAX};

size_t job_nonce_length(struct instance instance)
{
    return tag_length(instance) - 8;
}

void segment_fill(struct message *m, struct instance instance, struct place place, size_t note_length,
                  size_t body_length, struct prng *prng)
{
    struct reference_outcome outcome;

    message_draw(m, instance, (struct lengths){note_length, body_length, 0}, prng);
    m->place = place;
    outcome = reference_segment_seal(instance.width, instance.rounds, m->key, tag_length(instance), m->nonce,
                                     job_nonce_length(instance), place.job, place.revision, m->header, note_length,
                                     place.index, place.last, m->body, body_length, m->sealed, sealed_length(m));
    if (outcome.answer != DONE)
        prng_fill(prng, m->sealed, sealed_length(m));
}

struct place place_at(uint64_t index, uint32_t last, struct prng *prng)
{
    struct place place = {.index = index, .last = last, .complete = 0};

    place.job = prng_next(prng);
    place.revision = prng_next(prng);
    return place;
}

void small_segment(struct message *message, struct instance instance, struct prng *prng)
{
    bool is_empty = prng_below(prng, 8) == 0;
    size_t body_length = is_empty ? 0 : 1 + prng_below(prng, 4 * rate_of(instance));
    uint64_t index = is_empty ? 0 : prng_below(prng, LAST_INDEX + 1);
    struct place place = place_at(index, yes[prng_below(prng, YESES)], prng);
    size_t note_length = random_lengths(instance, prng).header;

    segment_fill(message, instance, place, note_length, body_length, prng);
}

struct call segment_call(const struct message *m, enum operation operation)
{
    struct call call = operation == SEGMENT_SEAL ? seal_call(m) : open_call(m);

    call.operation = operation;
    call.nonce.length = job_nonce_length(m->instance);
    call.trailer = (struct bytes){NULL, 0};
    call.place = m->place;
    return call;
}

void compare_segment_there_and_back(const struct message *message)
{
    struct call seal = segment_call(message, SEGMENT_SEAL);
    struct call open = segment_call(message, SEGMENT_OPEN);

    compare_call(&seal, DONE);
    compare_output(message->sealed, sealed_length(message));
    compare_call(&open, DONE);
    compare_output(message->body, message->lengths.body);
}
