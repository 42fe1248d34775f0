#ifndef RECEIVER_H
#define RECEIVER_H

#include "segments.h"

/* Takes the segments of a job in order; the index is that of the segment it waits for. */
struct receiver {
    uint32_t width, rounds;
    uint8_t key[LONGEST_TAG], nonce[LONGEST_TAG - INDEX_BYTES];
    struct edition edition;
    uint64_t index;
    bool is_complete;
};

/* Makes it the one of a refused start at this width, in which every number is zero. */
void receiver_clear(struct receiver *receiver, uint32_t width);

uint32_t receiver_start(struct receiver *receiver, const struct series *series);

/* Writes the message, or zeros where the tag differs. */
struct reference_outcome receiver_take(struct receiver *receiver, struct bytes note, bool is_last, struct bytes text,
                                       uint8_t *out, size_t out_len);

/* What the segments that it takes have. */
struct series receiver_series(const struct receiver *receiver);

#endif
