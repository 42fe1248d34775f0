/* Jobs that go in segments. */

#include "maker.h"

/* A long note is of one value, so that its calls stay short. */
static void note_at_its_limit(struct message *message, struct prng *prng)
{
    uint8_t value = (uint8_t)prng_next(prng);

    message->parts[NOTE].length = FRONT_BYTES;
    buffer_fill(&message->parts[NOTE], value, part_limits[NOTE] + prng_below(prng, 2));
}

static void make_body(struct delivery *d, size_t length, struct prng *prng)
{
    d->body.length = 0;
    buffer_fill(&d->body, (uint8_t)prng_next(prng), length);
    if (prng_below(prng, 4) != 0)
        prng_fill(prng, d->body.at, length);
}

void delivery_make(struct delivery *d, struct prng *prng)
{
    size_t some;

    job_make(&d->job, prng);
    if (prng_below(prng, 80) == 0)
        note_at_its_limit(&d->job.message, prng);
    some = draw_length(prng, d->job.message.width);
    make_body(d, PICK(prng, 0, 1, some, some, some, some), prng);
}

/* Five lengths and four settings, so that in twenty turns each meets each. */
void delivery_make_long(struct delivery *d, size_t turn, struct prng *prng)
{
    size_t full = SEGMENT_BYTES, some = 1 + draw_length(prng, 64);
    size_t lengths[] = {full - 1, full, full + 1, 2 * full, 2 * full + some};

    job_make(&d->job, prng);
    d->job.message.width = turn % 2 == 0 ? 32 : 64;
    d->job.message.rounds = turn / 2 % 2 == 0 ? 4 : 6;
    make_body(d, lengths[turn % 5], prng);
}

uint64_t delivery_segments(const struct delivery *d)
{
    return d->body.length == 0 ? 1 : (d->body.length + SEGMENT_BYTES - 1) / SEGMENT_BYTES;
}

struct segment delivery_segment(const struct delivery *d, uint64_t index)
{
    bool is_last = index + 1 == delivery_segments(d);
    size_t begin = index * SEGMENT_BYTES, length = is_last ? d->body.length - begin : SEGMENT_BYTES;

    return (struct segment){index, is_last, job_part(&d->job, SEALING, NOTE), {d->body.at + begin, length}};
}

struct series delivery_series(const struct delivery *d)
{
    const struct message *m = &d->job.message;
    size_t tag = tag_length(m->width);

    return (struct series){m->width, m->rounds, {m->key, tag}, {m->nonce, tag - INDEX_BYTES}, d->job.edition};
}
