#ifndef REFERENCE_SEGMENTS_H
#define REFERENCE_SEGMENTS_H

#include <stddef.h>
#include <stdint.h>

#include "norx.h"

/* Both answer the numbers of the library's norx_segment_seal and norx_segment_open, in the same order. */

struct reference_outcome reference_segment_seal(uint32_t width, uint32_t rounds, const uint8_t *key, size_t key_len,
                                                const uint8_t *nonce, size_t nonce_len, uint64_t job,
                                                uint64_t revision, const uint8_t *note, size_t note_len,
                                                uint64_t index, uint32_t last, const uint8_t *body, size_t body_len,
                                                uint8_t *out, size_t out_len);

struct reference_outcome reference_segment_open(uint32_t width, uint32_t rounds, const uint8_t *key, size_t key_len,
                                                const uint8_t *nonce, size_t nonce_len, uint64_t job,
                                                uint64_t revision, const uint8_t *note, size_t note_len,
                                                uint64_t index, uint32_t complete, uint32_t last,
                                                const uint8_t *sealed, size_t sealed_len, uint8_t *out,
                                                size_t out_len);

#endif
