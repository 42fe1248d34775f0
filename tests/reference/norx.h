#ifndef REFERENCE_NORX_H
#define REFERENCE_NORX_H

#include <stddef.h>
#include <stdint.h>

/* What a call answers, and how many times P ran in it. */
struct reference_outcome {
    uint32_t answer, runs;
};

/* Both answer the numbers of the library's norx_seal and norx_open, in the same order. */

struct reference_outcome reference_seal(uint32_t width, uint32_t rounds, const uint8_t *key, size_t key_len,
                                        const uint8_t *nonce, size_t nonce_len, const uint8_t *header,
                                        size_t header_len, const uint8_t *body, size_t body_len,
                                        const uint8_t *trailer, size_t trailer_len, uint8_t *out, size_t out_len);

struct reference_outcome reference_open(uint32_t width, uint32_t rounds, const uint8_t *key, size_t key_len,
                                        const uint8_t *nonce, size_t nonce_len, const uint8_t *header,
                                        size_t header_len, const uint8_t *sealed, size_t sealed_len,
                                        const uint8_t *trailer, size_t trailer_len, uint8_t *out, size_t out_len);

/* The same with the answer alone, which is what the benchmark measures. */

uint32_t reference_seal_answer(uint32_t width, uint32_t rounds, const uint8_t *key, size_t key_len,
                               const uint8_t *nonce, size_t nonce_len, const uint8_t *header, size_t header_len,
                               const uint8_t *body, size_t body_len, const uint8_t *trailer, size_t trailer_len,
                               uint8_t *out, size_t out_len);

uint32_t reference_open_answer(uint32_t width, uint32_t rounds, const uint8_t *key, size_t key_len,
                               const uint8_t *nonce, size_t nonce_len, const uint8_t *header, size_t header_len,
                               const uint8_t *sealed, size_t sealed_len, const uint8_t *trailer, size_t trailer_len,
                               uint8_t *out, size_t out_len);

/* How many times P has run so far, counted where it runs; always 0 in a program that is built without COUNT_RUNS. */
uint32_t reference_runs(void);

/* u0 to u15; the width of both functions below is 32 or 64. */
void reference_constants(uint32_t width, uint64_t words[16]);

/* The words of a session that has taken these bytes and stands in its header (0), body (1) or trailer (2), as
   docs/ARCHITECTURE.md has them: a block's mark and P come directly before its first byte, and only the parts before
   the present one are padded. */
void reference_words(uint32_t width, uint32_t rounds, const uint8_t *key, const uint8_t *nonce, const uint8_t *header,
                     size_t header_len, const uint8_t *body, size_t body_len, const uint8_t *trailer,
                     size_t trailer_len, unsigned present_part, int body_is_ciphertext, uint64_t words[16]);

#endif
