/* The answer of a call and the runs of P that it took, in one. */

#include "norx.h"

struct reference_outcome reference_seal(uint32_t width, uint32_t rounds, const uint8_t *key, size_t key_len,
                                        const uint8_t *nonce, size_t nonce_len, const uint8_t *header,
                                        size_t header_len, const uint8_t *body, size_t body_len,
                                        const uint8_t *trailer, size_t trailer_len, uint8_t *out, size_t out_len)
{
    const uint32_t runs_before = reference_runs();
    const uint32_t answer = reference_seal_answer(width, rounds, key, key_len, nonce, nonce_len, header, header_len,
                                                  body, body_len, trailer, trailer_len, out, out_len);

    return (struct reference_outcome){answer, reference_runs() - runs_before};
}

struct reference_outcome reference_open(uint32_t width, uint32_t rounds, const uint8_t *key, size_t key_len,
                                        const uint8_t *nonce, size_t nonce_len, const uint8_t *header,
                                        size_t header_len, const uint8_t *sealed, size_t sealed_len,
                                        const uint8_t *trailer, size_t trailer_len, uint8_t *out, size_t out_len)
{
    const uint32_t runs_before = reference_runs();
    const uint32_t answer = reference_open_answer(width, rounds, key, key_len, nonce, nonce_len, header, header_len,
                                                  sealed, sealed_len, trailer, trailer_len, out, out_len);

    return (struct reference_outcome){answer, reference_runs() - runs_before};
}
