#ifndef GUARDED_H
#define GUARDED_H

#include <stdbool.h>
#include <stddef.h>
#include <stdint.h>

/* A lent buffer with known bytes before and behind it. */
struct guarded {
    uint8_t *memory;
    uint8_t *bytes;
    size_t length;
};

/* The shift, from 0 to 15, moves the buffer off its alignment. */

void guarded_output(struct guarded *guarded, size_t length, size_t shift);

void guarded_input(struct guarded *guarded, const uint8_t *from, size_t length, size_t shift);

bool guards_are_intact(const struct guarded *guarded);

/* Says whether an output still holds what guarded_output put there, which is never a zero. */
bool output_is_untouched(const struct guarded *guarded);

bool output_is_zero(const struct guarded *guarded);

#endif
