/* What the calls have in common: the output that is lent, and the line that is written. */

#include <inttypes.h>

#include "calls.h"

enum { UNTOUCHED = 0xa5 };

uint8_t *lend_output(struct model *m, size_t length)
{
    m->output.length = 0;
    buffer_fill(&m->output, UNTOUCHED, length);
    return m->output.at;
}

void write_answer(struct model *m, uint32_t answer)
{
    buffer_print(&m->reply, "%" PRIu32, answer);
}

void write_outcome(struct model *m, struct reference_outcome outcome)
{
    buffer_print(&m->reply, "%" PRIu32 " %" PRIu32, outcome.answer, outcome.runs);
}

void write_output(struct model *m, bool is_known)
{
    buffer_print(&m->reply, " ");
    if (is_known || m->output.length == 0)
        buffer_hex(&m->reply, bytes_of(&m->output));
    else
        buffer_fill(&m->reply, '.', 2 * m->output.length);
}

struct edition edition_at(const struct argument *a)
{
    return (struct edition){a[0].number, a[1].number};
}
