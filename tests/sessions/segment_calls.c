/* The calls on segments, each answered by the model. */

#include <inttypes.h>

#include "calls.h"

/* Width, rounds, key, nonce, job and revision, which stand side by side wherever they stand. */
static struct series series_at(const struct argument *a)
{
    return (struct series){(uint32_t)a[0].number, (uint32_t)a[1].number, bytes_of(&a[2].bytes), bytes_of(&a[3].bytes),
                           edition_at(&a[4])};
}

bool answer_segment(struct model *m, const struct argument *a)
{
    struct series series = series_at(a);
    struct segment segment = {a[7].number, a[8].number != 0, bytes_of(&a[6].bytes), bytes_of(&a[9].bytes)};
    uint8_t *out = lend_output(m, a[10].number);

    write_outcome(m, segment_seal(&series, &segment, out, m->output.length));
    write_output(m, true);
    return true;
}

bool answer_receiver(struct model *m, const struct argument *a)
{
    struct series series = series_at(a);

    write_answer(m, receiver_start(&m->receiver, &series));
    return true;
}

bool answer_take(struct model *m, const struct argument *a)
{
    uint8_t *out = lend_output(m, a[3].number);

    write_outcome(m, receiver_take(&m->receiver, bytes_of(&a[0].bytes), a[1].number != 0, bytes_of(&a[2].bytes), out,
                                   m->output.length));
    write_output(m, true);
    buffer_print(&m->reply, " %" PRIu64 " %d", m->receiver.index, m->receiver.is_complete);
    return true;
}

bool answer_await(struct model *m, const struct argument *a)
{
    m->receiver.index = a[0].number;
    m->receiver.is_complete = a[1].number != 0;
    m->receiver.rounds = (uint32_t)a[2].number;
    write_answer(m, DONE);
    return true;
}
