#ifndef SEGMENTS_H
#define SEGMENTS_H

#include "session.h"

enum { SEGMENT_BYTES = 65536, MOST_SEGMENTS = 1048576, INDEX_BYTES = 8 };

/* What all segments of a job have; the nonce is the job's, which an index is to follow. */
struct series {
    uint32_t width, rounds;
    struct bytes key, nonce;
    struct edition edition;
};

/* One of them: its bytes are the message, or the sealed text where that is opened. */
struct segment {
    uint64_t index;
    bool is_last;
    struct bytes note, bytes;
};

/* Whether a segment of this index and flag may have a message of this length. */
bool segment_is_ruled(uint64_t index, bool is_last, uint64_t length);

/* Seals or opens it as one call does, whatever the rule says. */
struct reference_outcome segment_as_one_call(enum kind kind, const struct series *series,
                                             const struct segment *segment, uint8_t *out, size_t out_len);

struct reference_outcome segment_seal(const struct series *series, const struct segment *segment, uint8_t *out,
                                      size_t out_len);

#endif
