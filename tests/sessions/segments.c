/* A segment by its requirements: the rule of its length, and one reference call for it. */

#include "segments.h"

bool segment_is_ruled(uint64_t index, bool is_last, uint64_t length)
{
    if (index >= MOST_SEGMENTS || (index == MOST_SEGMENTS - 1 && !is_last))
        return false;
    if (!is_last)
        return length == SEGMENT_BYTES;
    return length <= SEGMENT_BYTES && (length > 0 || index == 0);
}

/* A job nonce of another length gives a nonce of another length, and too long a note too long a header: so the answers
   1 and 4 are those of the one call. */
struct reference_outcome segment_as_one_call(enum kind kind, const struct series *s, const struct segment *segment,
                                             uint8_t *out, size_t out_len)
{
    static struct buffer nonce, header;

    nonce.length = header.length = 0;
    buffer_add(&nonce, s->nonce.at, s->nonce.length);
    add_number(&nonce, 2 * segment->index + segment->is_last);
    add_number(&header, s->edition.job);
    add_number(&header, s->edition.revision);
    buffer_add(&header, segment->note.at, segment->note.length);
    return (kind == SEALING ? reference_seal : reference_open)(
        s->width, s->rounds, s->key.at, s->key.length, nonce.at, nonce.length, header.at, header.length,
        segment->bytes.at, segment->bytes.length, NULL, 0, out, out_len);
}

struct reference_outcome segment_seal(const struct series *s, const struct segment *segment, uint8_t *out,
                                      size_t out_len)
{
    if (s->width != 32 && s->width != 64)
        return refused(BAD_WIDTH);
    if (!segment_is_ruled(segment->index, segment->is_last, segment->bytes.length))
        return refused(BAD_SEGMENT);
    return segment_as_one_call(SEALING, s, segment, out, out_len);
}
