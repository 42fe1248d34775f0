/* Scripts: sessions from start to close, jobs in segments and lists, with all that can go wrong on the way. */

#include "script.h"

#include "maker.h"

enum { LINES = 2500, SEGMENT_LINES = 500, LIST_LINES = 1500 };

static bool all_is_taken(struct maker *m)
{
    const struct session *s = &m->model.session;

    for (unsigned part = 0; part < PARTS; part++)
        if (s->numbers.counts[part] < job_part(&m->job, s->kind, part).length)
            return false;
    return true;
}

/* One step of a session, which mostly goes forward. */
static void step(struct maker *m)
{
    size_t die = prng_below(&m->prng, 100);

    if (die < 64)
        send_piece(m, false);
    else if (die < 82)
        send_piece(m, true);
    else if (die < 88)
        send_close(m, true);
    else if (die < 94)
        send_invented(m);
    else
        send_one_call(m, !chance(m, 3));
}

/* A session of a new job or of the last one again, often to check what was sealed; seldom left open. */
static void one_session(struct maker *m)
{
    enum kind kind = chance(m, 2) ? SEALING : CHECKING;
    size_t steps = 20 + prng_below(&m->prng, 30);

    if (chance(m, 2))
        job_make(&m->job, &m->prng);
    if (chance(m, 6))
        send_start(m, kind, true);
    if (chance(m, 8))
        step(m);
    send_start(m, kind, false);
    for (; steps > 0 && m->model.session.numbers.standing != CLOSED; steps--)
        if (all_is_taken(m) && chance(m, 2))
            send_close(m, kind == CHECKING && chance(m, 3));
        else
            step(m);
    for (size_t after = prng_below(&m->prng, 3); after > 0; after--)
        step(m);
}

/* The last line has no newline. */
static void sessions(struct buffer *script, struct prng prng)
{
    static struct maker maker;

    maker_start(&maker, script, prng);
    step(&maker);
    while (maker.lines < LINES)
        one_session(&maker);
    script->length--;
}

/* One call on segments or on the session held, which do not disturb each other. */
static void segment_step(struct maker *m)
{
    size_t die = prng_below(&m->prng, 100);

    if (die < 48)
        send_take(m, false);
    else if (die < 64)
        send_take(m, true);
    else if (die < 78)
        send_stray(m);
    else if (die < 86)
        send_awaiting(m);
    else if (die < 92)
        send_far_segment(m);
    else
        step(m);
}

/* A job, sealed and then taken to its end or given up, and some calls behind it. */
static void deliver(struct maker *m)
{
    size_t steps = 8 + prng_below(&m->prng, 8);

    for (uint64_t index = 0; index < delivery_segments(&m->delivery); index++) {
        if (chance(m, 3))
            send_segment(m, index, true);
        send_segment(m, index, false);
    }
    if (chance(m, 3))
        send_start(m, chance(m, 2) ? SEALING : CHECKING, false);
    if (chance(m, 4)) {
        send_receiver(m, true);
        send_awaiting(m);
    }
    send_receiver(m, false);
    for (; steps > 0 && !m->model.receiver.is_complete; steps--)
        segment_step(m);
    for (size_t after = prng_below(&m->prng, 3); after > 0; after--)
        segment_step(m);
}

/* One job is long: the calls of a whole segment are the dear ones. */
static void segments(struct buffer *script, struct prng prng, size_t turn)
{
    static struct maker maker;

    maker_start(&maker, script, prng);
    delivery_make(&maker.delivery, &maker.prng);
    segment_step(&maker);
    delivery_make_long(&maker.delivery, turn, &maker.prng);
    deliver(&maker);
    while (maker.lines < SEGMENT_LINES) {
        delivery_make(&maker.delivery, &maker.prng);
        deliver(&maker);
    }
    script->length--;
}

/* One call on lists, or one on the session held, which the others leave as it is. */
static void list_step(struct maker *m)
{
    size_t die = prng_below(&m->prng, 100);

    if (die < 56)
        send_read(m, true);
    else if (die < 64)
        send_read(m, false);
    else if (die < 76)
        send_fields(m);
    else if (die < 92)
        send_list(m, chance(m, 2));
    else if (die < 95)
        send_far_list(m);
    else
        step(m);
}

static void lists(struct buffer *script, struct prng prng)
{
    static struct maker maker;

    maker_start(&maker, script, prng);
    send_start(&maker, SEALING, false);
    send_longest_list(&maker);
    while (maker.lines < LIST_LINES)
        list_step(&maker);
    script->length--;
}

void make_script(struct buffer *script, uint64_t seed, uint64_t number)
{
    script->length = 0;
    if (number == LONG_LINES)
        long_lines(script);
    else if (number > LAST_OF_SEGMENTS)
        lists(script, prng_start(seed, number));
    else if (number > LONG_LINES)
        segments(script, prng_start(seed, number), number);
    else
        sessions(script, prng_start(seed, number));
}
