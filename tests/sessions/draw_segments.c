/* The calls on segments, each as the receiver that it meets needs it, bent, or astray. */

#include "maker.h"

static void send_sealing(struct maker *m, const struct series *s, const struct segment *segment, bool is_bent)
{
    struct word words[] = {{s->width, {0}},
                           {s->rounds, {0}},
                           {0, s->key},
                           {0, s->nonce},
                           {s->edition.job, {0}},
                           {s->edition.revision, {0}},
                           {0, segment->note},
                           {segment->index, {0}},
                           {segment->is_last, {0}},
                           {0, segment->bytes},
                           {segment->bytes.length + tag_length(s->width), {0}}};

    send_call(m, "segment", words, is_bent);
}

void send_segment(struct maker *m, uint64_t index, bool is_bent)
{
    struct series series = delivery_series(&m->delivery);
    struct segment segment = delivery_segment(&m->delivery, index);

    send_sealing(m, &series, &segment, is_bent);
}

void send_receiver(struct maker *m, bool is_bent)
{
    struct series s = delivery_series(&m->delivery);
    struct word words[] = {{s.width, {0}}, {s.rounds, {0}},      {0, s.key},
                           {0, s.nonce},   {s.edition.job, {0}}, {s.edition.revision, {0}}};

    send_call(m, "receiver", words, is_bent);
}

/* Small, at the last that there is, past it, or where twice the index is past 64 bits. */
static uint64_t draw_index(struct maker *m, uint64_t near)
{
    uint64_t any = prng_below(&m->prng, MOST_SEGMENTS), half = (uint64_t)1 << 63, last = MOST_SEGMENTS - 1;

    return PICK(&m->prng, 0, 1, 1, near + 1, near - 1, any, any, last - 1, last - 1, last, last, last, last + 1, half,
                half + any, UINT64_MAX);
}

/* Under any index: most often short and flagged last, seldom empty or full. */
static struct segment far_segment(struct maker *m, uint64_t index)
{
    struct bytes some = random_bytes(m, 1 + draw_length(&m->prng, 32)), full = {m->same.at, SEGMENT_BYTES};
    struct segment segment = {index, true, job_part(&m->delivery.job, SEALING, NOTE), some};
    size_t die = prng_below(&m->prng, 100);

    if (die < 2)
        segment.bytes = full;
    else if (die < 20)
        segment.bytes.length = 0;
    if (chance(m, die < 2 ? 2 : 20))
        segment.is_last = false;
    return segment;
}

void send_far_segment(struct maker *m)
{
    struct series series = delivery_series(&m->delivery);
    struct segment segment = far_segment(m, draw_index(m, 0));

    send_sealing(m, &series, &segment, chance(m, 4));
}

/* What the receiver held waits for. */
static struct segment awaited(struct maker *m)
{
    uint64_t index = m->model.receiver.index;

    return index < delivery_segments(&m->delivery) ? delivery_segment(&m->delivery, index) : far_segment(m, index);
}

/* Brings the segment's text under that flag. It is sealed also where the rule or the receiver's rounds forbid it. */
static void bring(struct maker *m, struct series *s, const struct segment *segment, bool is_last, bool is_bent)
{
    static struct buffer text;
    struct word words[] = {{0, segment->note}, {is_last, {0}}, {0, {0}}, {segment->bytes.length, {0}}};

    if (s->rounds != 4 && s->rounds != 6)
        s->rounds = 4;
    text.length = 0;
    buffer_fill(&text, 0, segment->bytes.length + tag_length(s->width));
    segment_as_one_call(SEALING, s, segment, text.at, text.length);
    words[2].bytes = bytes_of(&text);
    send_call(m, "take", words, is_bent);
}

void send_take(struct maker *m, bool is_bent)
{
    struct series series = receiver_series(&m->model.receiver);
    struct segment segment = awaited(m);

    bring(m, &series, &segment, segment.is_last, is_bent);
}

/* Another key or another job nonce, by one bit. */
static struct bytes other_secret(struct maker *m, struct bytes right, uint8_t changed[LONGEST_TAG])
{
    uint8_t bit = (uint8_t)(1 << prng_below(&m->prng, 8));

    memcpy(changed, right.at, right.length);
    changed[prng_below(&m->prng, right.length)] ^= bit;
    return (struct bytes){changed, right.length};
}

static void stray_series(struct maker *m, struct series *s, uint8_t changed[LONGEST_TAG])
{
    uint64_t bit = (uint64_t)1 << prng_below(&m->prng, 64);
    struct edition own = s->edition;

    switch (prng_below(&m->prng, 6)) {
    case 0:
        s->edition.job ^= bit;
        break;
    case 1:
        s->edition.revision ^= bit;
        break;
    case 2:
        s->edition = (struct edition){own.revision, own.job};
        break;
    case 3:
        s->rounds = s->rounds == 4 ? 6 : 4;
        break;
    case 4:
        s->key = other_secret(m, s->key, changed);
        break;
    default:
        s->nonce = other_secret(m, s->nonce, changed);
    }
}

/* Another one of the delivery, which is dropped before, swapped or repeated by it; or the same bytes elsewhere. */
static struct segment stray_segment(struct maker *m, struct segment right)
{
    uint64_t some = prng_below(&m->prng, delivery_segments(&m->delivery));
    uint64_t bit = (uint64_t)1 << prng_below(&m->prng, 20);
    struct segment other = right;

    if (some != right.index && chance(m, 2))
        return delivery_segment(&m->delivery, some);
    other.index = PICK(&m->prng, right.index + 1, right.index - 1, right.index ^ bit);
    return other;
}

void send_stray(struct maker *m)
{
    struct series series = receiver_series(&m->model.receiver);
    struct segment segment = awaited(m);
    bool is_last = segment.is_last;
    uint8_t changed[LONGEST_TAG];

    switch (prng_below(&m->prng, 6)) {
    case 0:
        segment.is_last = !is_last;
        break;
    case 1:
        segment.is_last = is_last = !is_last;
        break;
    case 2:
    case 3:
        segment = stray_segment(m, segment);
        is_last = segment.is_last;
        break;
    default:
        stray_series(m, &series, changed);
    }
    bring(m, &series, &segment, is_last, chance(m, 8));
}

static void send_await(struct maker *m, const struct receiver *numbers, bool is_bent)
{
    struct word words[] = {{numbers->index, {0}}, {numbers->is_complete, {0}}, {numbers->rounds, {0}}};

    send_call(m, "await", words, is_bent);
}

/* A text of one value, about as long as that of a whole segment: never the right one, but its length may be. */
static void send_blank(struct maker *m)
{
    size_t full = SEGMENT_BYTES, length = PICK(&m->prng, full - 1, full, full, full + 1);
    struct bytes text = {m->same.at, length + tag_length(m->model.receiver.width)};
    struct bytes note = job_part(&m->delivery.job, SEALING, NOTE);
    struct word words[] = {{0, note}, {chance(m, 2), {0}}, {0, text}, {length, {0}}};

    send_call(m, "take", words, chance(m, 6));
}

void send_awaiting(struct maker *m)
{
    const struct receiver own = m->model.receiver;
    struct receiver other = own;

    other.index = draw_index(m, own.index);
    other.is_complete = chance(m, 8);
    other.rounds = (uint32_t)PICK(&m->prng, own.rounds, own.rounds, own.rounds, 4, 6, 4, 6, 0, 5);
    send_await(m, &other, chance(m, 6));
    for (size_t tries = 1 + prng_below(&m->prng, 4); tries > 0; tries--)
        if (m->model.receiver.is_complete && !chance(m, 3))
            break;
        else if (chance(m, 8))
            send_blank(m);
        else if (chance(m, 3))
            send_stray(m);
        else
            send_take(m, chance(m, 3));
    if (!chance(m, 4))
        send_await(m, &own, false);
}
