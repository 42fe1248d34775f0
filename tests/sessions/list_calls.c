/* The calls on lists, each answered by the model. */

#include <inttypes.h>

#include "calls.h"
#include "lists.h"

bool answer_list(struct model *m, const struct argument *a)
{
    uint8_t *out = lend_output(m, a[3].number);

    write_answer(m, list_write(edition_at(a), a[2].number, out, m->output.length));
    write_output(m, true);
    return true;
}

bool answer_read(struct model *m, const struct argument *a)
{
    struct list list;
    uint64_t bad_line = list_read(&list, bytes_of(&a[0].bytes));

    if (bad_line != 0) {
        buffer_print(&m->reply, "bad %" PRIu64, bad_line);
        return true;
    }
    write_answer(m, DONE);
    buffer_print(&m->reply, " %" PRIu64 " %" PRIu64 " %" PRIu64 " %" PRIu64, list.edition.job, list.edition.revision,
                 list.segments, list.length);
    return true;
}

bool answer_fields(struct model *m, const struct argument *a)
{
    struct bytes left = bytes_of(&a[0].bytes);

    write_answer(m, DONE);
    for (uint64_t i = 0; i < a[1].number; i++) {
        buffer_print(&m->reply, " ");
        buffer_hex(&m->reply, next_field(&left));
    }
    return true;
}
