#ifndef LISTS_H
#define LISTS_H

#include "segments.h"

/* What a list says of a job. */
struct list {
    struct edition edition;
    uint64_t segments, length;
};

/* Adds the lines of a body of this length; a text that is longer than the longest that matters may end early. */
void add_list(struct buffer *text, struct edition edition, uint64_t length, size_t longest);

uint32_t list_write(struct edition edition, uint64_t length, uint8_t *out, size_t out_len);

/* Gives 0 and what the list says, or else the number of the first bad line. */
uint64_t list_read(struct list *list, struct bytes text);

/* Takes the next field away from the text, and the tab or newline behind it. */
struct bytes next_field(struct bytes *text);

#endif
