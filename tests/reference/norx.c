/* NORX 3.0 with parallelism 1: the independent program that the library is compared with. */

#include "norx.h"

#include <string.h>

enum { MARK_HEADER = 0x01, MARK_BODY = 0x02, MARK_TRAILER = 0x04, MARK_FINISH = 0x08 };

enum { EDGE_LIMIT = 65536, BODY_LIMIT = 16777216 };

enum {
    DONE = 0,
    BAD_KEY_OR_NONCE = 1,
    BAD_ROUNDS = 2,
    TOO_SHORT = 3,
    OVER_LIMIT = 4,
    BAD_OUTPUT = 5,
    BAD_TAG = 10,
    BAD_WIDTH = 11
};

struct slice {
    const uint8_t *bytes;
    size_t length;
};

/* In opening the body is the ciphertext, and the tag stands behind it. */
struct request {
    uint32_t rounds;
    struct slice key, nonce, header, body, trailer;
};

/* The words are moved as they lie in memory. */
#if __BYTE_ORDER__ != __ORDER_LITTLE_ENDIAN__
#error "NORX words are little-endian"
#endif

/* The tests count the runs of P. The benchmark does not: there the reference is to be as quick as it can be. */
#ifdef COUNT_RUNS
static uint32_t runs_so_far;
#define COUNT_RUN() runs_so_far++
#else
enum { runs_so_far = 0 };
#define COUNT_RUN() (void)0
#endif

/* Only inlined do the words of a local state stay in registers. */
#define INLINE static inline __attribute__((always_inline))

#define WIDTH 32
#define ROTATION_0 8
#define ROTATION_1 11
#define ROTATION_2 16
#define ROTATION_3 31
#include "norx_width.inc"

#define WIDTH 64
#define ROTATION_0 8
#define ROTATION_1 19
#define ROTATION_2 40
#define ROTATION_3 63
#include "norx_width.inc"

static size_t tag_length(uint32_t width)
{
    return width == 32 ? tag_bytes_32 : tag_bytes_64;
}

/* Numbers 11, 2 and 1, which do not ask for the body's length. */
static uint32_t refuse_parameters(uint32_t width, const struct request *r)
{
    if (width != 32 && width != 64)
        return BAD_WIDTH;
    if (r->rounds != 4 && r->rounds != 6)
        return BAD_ROUNDS;
    if (r->key.length != tag_length(width) || r->nonce.length != tag_length(width))
        return BAD_KEY_OR_NONCE;
    return DONE;
}

static uint32_t refuse_lengths(const struct request *r, size_t out_len, size_t exact_out_len)
{
    if (r->header.length > EDGE_LIMIT || r->body.length > BODY_LIMIT || r->trailer.length > EDGE_LIMIT)
        return OVER_LIMIT;
    return out_len == exact_out_len ? DONE : BAD_OUTPUT;
}

uint32_t reference_seal_answer(uint32_t width, uint32_t rounds, const uint8_t *key, size_t key_len,
                               const uint8_t *nonce, size_t nonce_len, const uint8_t *header, size_t header_len,
                               const uint8_t *body, size_t body_len, const uint8_t *trailer, size_t trailer_len,
                               uint8_t *out, size_t out_len)
{
    const struct request r = {rounds,           {key, key_len},   {nonce, nonce_len}, {header, header_len},
                              {body, body_len}, {trailer, trailer_len}};
    uint32_t answer = refuse_parameters(width, &r);

    if (answer == DONE)
        answer = refuse_lengths(&r, out_len, body_len + tag_length(width));
    if (answer != DONE)
        return answer;
    if (width == 32)
        seal_32(&r, out);
    else
        seal_64(&r, out);
    return DONE;
}

uint32_t reference_open_answer(uint32_t width, uint32_t rounds, const uint8_t *key, size_t key_len,
                               const uint8_t *nonce, size_t nonce_len, const uint8_t *header, size_t header_len,
                               const uint8_t *sealed, size_t sealed_len, const uint8_t *trailer, size_t trailer_len,
                               uint8_t *out, size_t out_len)
{
    struct request r = {rounds,      {key, key_len},         {nonce, nonce_len}, {header, header_len},
                        {sealed, 0}, {trailer, trailer_len}};
    uint32_t answer = refuse_parameters(width, &r);

    if (answer != DONE)
        return answer;
    if (sealed_len < tag_length(width))
        return TOO_SHORT;
    r.body.length = sealed_len - tag_length(width);
    answer = refuse_lengths(&r, out_len, r.body.length);
    if (answer != DONE)
        return answer;
    if (width == 32 ? open_32(&r, out) : open_64(&r, out))
        return DONE;
    if (out_len > 0)
        memset(out, 0, out_len);
    return BAD_TAG;
}

void reference_constants(uint32_t width, uint64_t words[16])
{
    for (int i = 0; i < 16; i++)
        words[i] = width == 32 ? constants_32[i] : constants_64[i];
}

void reference_words(uint32_t width, uint32_t rounds, const uint8_t *key, const uint8_t *nonce, const uint8_t *header,
                     size_t header_len, const uint8_t *body, size_t body_len, const uint8_t *trailer,
                     size_t trailer_len, unsigned present_part, int body_is_ciphertext, uint64_t words[16])
{
    const struct request r = {rounds,           {key, 0},         {nonce, 0}, {header, header_len},
                              {body, body_len}, {trailer, trailer_len}};

    if (width == 32)
        words_between_calls_32(&r, present_part, body_is_ciphertext, words);
    else
        words_between_calls_64(&r, present_part, body_is_ciphertext, words);
}

uint32_t reference_runs(void)
{
    return runs_so_far;
}
