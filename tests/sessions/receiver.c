/* A receiver by its requirements: the order of its segments, and when it is complete. */

#include "receiver.h"

#include <string.h>

void receiver_clear(struct receiver *r, uint32_t width)
{
    *r = (struct receiver){.width = width};
}

uint32_t receiver_start(struct receiver *r, const struct series *s)
{
    size_t tag = tag_length(s->width);

    receiver_clear(r, s->width);
    if (s->rounds != 4 && s->rounds != 6)
        return BAD_ROUNDS;
    if (s->key.length != tag || s->nonce.length != tag - INDEX_BYTES)
        return BAD_KEY_OR_NONCE;
    r->rounds = s->rounds;
    memcpy(r->key, s->key.at, s->key.length);
    memcpy(r->nonce, s->nonce.at, s->nonce.length);
    r->edition = s->edition;
    return DONE;
}

struct series receiver_series(const struct receiver *r)
{
    size_t tag = tag_length(r->width);

    return (struct series){r->width, r->rounds, {r->key, tag}, {r->nonce, tag - INDEX_BYTES}, r->edition};
}

/* A text that is shorter than a tag has no segment's length either. */
static uint32_t refuse_text(const struct receiver *r, bool is_last, size_t length)
{
    size_t tag = tag_length(r->width);

    if (r->is_complete)
        return AFTER_LAST;
    return length >= tag && segment_is_ruled(r->index, is_last, length - tag) ? DONE : BAD_SEGMENT;
}

struct reference_outcome receiver_take(struct receiver *r, struct bytes note, bool is_last, struct bytes text,
                                       uint8_t *out, size_t out_len)
{
    struct series series = receiver_series(r);
    struct segment segment = {r->index, is_last, note, text};
    struct reference_outcome outcome = refused(refuse_text(r, is_last, text.length));

    if (outcome.answer == DONE)
        outcome = segment_as_one_call(CHECKING, &series, &segment, out, out_len);
    if (outcome.answer == DONE) {
        r->index++;
        r->is_complete = is_last;
    }
    return outcome;
}
