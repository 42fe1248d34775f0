/* Segments of a job, by their rule: each is one sealing of the reference, under a nonce and a header of its own. */

#include "segments.h"

#include <stdbool.h>
#include <string.h>

enum { SEGMENT_BYTES = 65536, LAST_INDEX = 1048575, FRONT_BYTES = 16, NOTE_LIMIT = 65520, LONGEST_NONCE = 32 };

enum {
    DONE = 0,
    BAD_KEY_OR_NONCE = 1,
    BAD_ROUNDS = 2,
    OVER_LIMIT = 4,
    BAD_WIDTH = 11,
    BAD_SEGMENT = 13,
    AFTER_LAST = 14
};

/* What both calls are given but for the text and its output. */
struct request {
    uint32_t width, rounds;
    size_t key_len;
    const uint8_t *nonce;
    size_t nonce_len;
    uint64_t job, revision;
    const uint8_t *note;
    size_t note_len;
    uint64_t index;
    bool last;
};

/* The nonce and the header of the one sealing that a segment is. */
struct bound {
    uint8_t nonce[LONGEST_NONCE], header[FRONT_BYTES + NOTE_LIMIT];
    size_t nonce_len, header_len;
};

static bool is_width(uint32_t width)
{
    return width == 32 || width == 64;
}

static size_t key_length(uint32_t width)
{
    return width == 32 ? 16 : 32;
}

static size_t tag_length(uint32_t width)
{
    return width == 32 ? 16 : 32;
}

static size_t job_nonce_length(uint32_t width)
{
    return width == 32 ? 8 : 24;
}

static bool is_segment(const struct request *r, size_t body_len)
{
    if (r->index > LAST_INDEX)
        return false;
    if (!r->last)
        return r->index < LAST_INDEX && body_len == SEGMENT_BYTES;
    if (body_len == 0)
        return r->index == 0;
    return body_len <= SEGMENT_BYTES;
}

/* Numbers 2, 1 and 4; what is left is for the one sealing to answer. */
static uint32_t refuse_as_one_call(const struct request *r)
{
    if (r->rounds != 4 && r->rounds != 6)
        return BAD_ROUNDS;
    if (r->key_len != key_length(r->width) || r->nonce_len != job_nonce_length(r->width))
        return BAD_KEY_OR_NONCE;
    return r->note_len > NOTE_LIMIT ? OVER_LIMIT : DONE;
}

static void put_least_first(uint8_t bytes[8], uint64_t number)
{
    for (int i = 0; i < 8; i++) {
        bytes[i] = (uint8_t)(number % 256);
        number /= 256;
    }
}

static void put_together(struct bound *bound, const struct request *r)
{
    memcpy(bound->nonce, r->nonce, r->nonce_len);
    put_least_first(bound->nonce + r->nonce_len, 2 * r->index + (r->last ? 1 : 0));
    bound->nonce_len = r->nonce_len + 8;
    put_least_first(bound->header, r->job);
    put_least_first(bound->header + 8, r->revision);
    if (r->note_len > 0)
        memcpy(bound->header + FRONT_BYTES, r->note, r->note_len);
    bound->header_len = FRONT_BYTES + r->note_len;
}

/* P has not run yet. */
static struct reference_outcome refused(uint32_t answer)
{
    return (struct reference_outcome){answer, 0};
}

struct reference_outcome reference_segment_seal(uint32_t width, uint32_t rounds, const uint8_t *key, size_t key_len,
                                                const uint8_t *nonce, size_t nonce_len, uint64_t job,
                                                uint64_t revision, const uint8_t *note, size_t note_len,
                                                uint64_t index, uint32_t last, const uint8_t *body, size_t body_len,
                                                uint8_t *out, size_t out_len)
{
    const struct request r = {width,    rounds, key_len,  nonce, nonce_len, job,
                              revision, note,   note_len, index, last != 0};
    struct bound bound;
    uint32_t answer;

    if (!is_width(width))
        return refused(BAD_WIDTH);
    if (!is_segment(&r, body_len))
        return refused(BAD_SEGMENT);
    answer = refuse_as_one_call(&r);
    if (answer != DONE)
        return refused(answer);
    put_together(&bound, &r);
    return reference_seal(width, rounds, key, key_len, bound.nonce, bound.nonce_len, bound.header, bound.header_len,
                          body, body_len, NULL, 0, out, out_len);
}

struct reference_outcome reference_segment_open(uint32_t width, uint32_t rounds, const uint8_t *key, size_t key_len,
                                                const uint8_t *nonce, size_t nonce_len, uint64_t job,
                                                uint64_t revision, const uint8_t *note, size_t note_len,
                                                uint64_t index, uint32_t complete, uint32_t last,
                                                const uint8_t *sealed, size_t sealed_len, uint8_t *out,
                                                size_t out_len)
{
    const struct request r = {width,    rounds, key_len,  nonce, nonce_len, job,
                              revision, note,   note_len, index, last != 0};
    struct bound bound;
    uint32_t answer;

    if (!is_width(width))
        return refused(BAD_WIDTH);
    if (complete != 0)
        return refused(AFTER_LAST);
    if (sealed_len < tag_length(width) || !is_segment(&r, sealed_len - tag_length(width)))
        return refused(BAD_SEGMENT);
    answer = refuse_as_one_call(&r);
    if (answer != DONE)
        return refused(answer);
    put_together(&bound, &r);
    return reference_open(width, rounds, key, key_len, bound.nonce, bound.nonce_len, bound.header, bound.header_len,
                          sealed, sealed_len, NULL, 0, out, out_len);
}
