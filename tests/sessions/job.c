/* Jobs: random parts under a random key. */

#include "maker.h"

size_t draw_length(struct prng *prng, uint32_t width)
{
    size_t rate = width / 8 * 12, any = prng_below(prng, 3 * rate);

    if (prng_below(prng, 150) == 0)
        return prng_below(prng, 4000);
    return PICK(prng, 0, 0, 1, rate - 1, rate, rate + 1, 2 * rate, any, any, any, any, any);
}

/* Seldom as long as the part may be, and then of one value, so that its call stays short. */
static void fill_part(struct message *message, unsigned part, struct prng *prng)
{
    struct buffer *bytes = &message->parts[part];
    bool is_full = part != BODY && prng_below(prng, 200) == 0;
    size_t length = is_full ? part_limits[part] : draw_length(prng, message->width);

    buffer_fill(bytes, (uint8_t)prng_next(prng), length);
    if (!is_full && prng_below(prng, 8) != 0)
        prng_fill(prng, bytes->at + bytes->length - length, length);
}

/* A job's or a revision's number: small, the largest, or any. */
static uint64_t draw_number(struct prng *prng)
{
    uint64_t any = prng_next(prng), small = prng_below(prng, 300);

    return PICK(prng, small, UINT64_MAX, any, any);
}

void job_make(struct job *job, struct prng *prng)
{
    struct message *m = &job->message;

    m->width = PICK(prng, 32, 64);
    m->rounds = PICK(prng, 4, 6);
    prng_fill(prng, m->key, sizeof m->key);
    prng_fill(prng, m->nonce, sizeof m->nonce);
    job->edition.job = draw_number(prng);
    job->edition.revision = draw_number(prng);
    message_begin(m, job->edition);
    m->parts[BODY].length = m->parts[TRAILER].length = 0;
    for (unsigned part = 0; part < PARTS; part++)
        fill_part(m, part, prng);
    message_seal(m, &job->sealed);
}

struct bytes job_part(const struct job *job, enum kind kind, unsigned part)
{
    struct bytes bytes = bytes_of(&job->message.parts[part]);

    if (part == NOTE)
        return (struct bytes){bytes.at + FRONT_BYTES, bytes.length - FRONT_BYTES};
    if (part == BODY && kind == CHECKING)
        return (struct bytes){job->sealed.at, bytes.length};
    return bytes;
}

struct bytes job_tag(const struct job *job)
{
    return (struct bytes){job->sealed.at + job->message.parts[BODY].length, tag_length(job->message.width)};
}
