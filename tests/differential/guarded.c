/* Buffers between guard bytes; their memory is kept from case to case and grows on demand. */

#include "guarded.h"

#include <stdio.h>
#include <stdlib.h>
#include <string.h>

enum { GUARD = 64, SHIFTS = 16 };

static uint8_t fill_byte(size_t place)
{
    return (uint8_t)(0x80 | place * 37);
}

static void fill(struct guarded *guarded, size_t from, size_t to)
{
    for (size_t i = from; i < to; i++)
        guarded->memory[i] = fill_byte(i);
}

static bool is_filled(const struct guarded *guarded, size_t from, size_t to)
{
    for (size_t i = from; i < to; i++)
        if (guarded->memory[i] != fill_byte(i))
            return false;
    return true;
}

static size_t begin_of(const struct guarded *guarded)
{
    return (size_t)(guarded->bytes - guarded->memory);
}

static size_t end_of(const struct guarded *guarded)
{
    return begin_of(guarded) + guarded->length;
}

static void place(struct guarded *guarded, size_t length, size_t shift)
{
    uint8_t *memory = realloc(guarded->memory, length + SHIFTS + 2 * GUARD);

    if (memory == NULL) {
        fprintf(stderr, "no memory for %zu bytes\n", length);
        exit(2);
    }
    guarded->memory = memory;
    guarded->bytes = memory + GUARD + shift % SHIFTS;
    guarded->length = length;
}

void guarded_output(struct guarded *guarded, size_t length, size_t shift)
{
    place(guarded, length, shift);
    fill(guarded, 0, end_of(guarded) + GUARD);
}

void guarded_input(struct guarded *guarded, const uint8_t *from, size_t length, size_t shift)
{
    place(guarded, length, shift);
    fill(guarded, 0, begin_of(guarded));
    if (length > 0)
        memcpy(guarded->bytes, from, length);
    fill(guarded, end_of(guarded), end_of(guarded) + GUARD);
}

bool guards_are_intact(const struct guarded *guarded)
{
    return is_filled(guarded, 0, begin_of(guarded)) && is_filled(guarded, end_of(guarded), end_of(guarded) + GUARD);
}

bool output_is_untouched(const struct guarded *guarded)
{
    return is_filled(guarded, begin_of(guarded), end_of(guarded));
}

bool output_is_zero(const struct guarded *guarded)
{
    for (size_t i = 0; i < guarded->length; i++)
        if (guarded->bytes[i] != 0)
            return false;
    return true;
}
