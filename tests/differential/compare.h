#ifndef COMPARE_H
#define COMPARE_H

#include <stdbool.h>
#include <stddef.h>
#include <stdint.h>

enum {
    DONE = 0,
    BAD_KEY_OR_NONCE = 1,
    BAD_ROUNDS = 2,
    TOO_SHORT = 3,
    OVER_LIMIT = 4,
    BAD_OUTPUT = 5,
    BAD_TAG = 10,
    BAD_WIDTH = 11,
    BAD_SEGMENT = 13,
    AFTER_LAST = 14
};

enum operation { SEAL, OPEN, SEGMENT_SEAL, SEGMENT_OPEN };

struct bytes {
    const uint8_t *at;
    size_t length;
};

/* The numbers of a segment; sealing has no use for complete, and the calls on whole messages for none of them. */
struct place {
    uint64_t job, revision, index;
    uint32_t last, complete;
};

/* A call of sealing or opening; in opening the body is the sealed text. A segment's header is the note of its job,
   its nonce that of its job, and it has no trailer. */
struct call {
    enum operation operation;
    uint32_t width, rounds;
    struct bytes key, nonce, header, body, trailer;
    struct place place;
    size_t out_len;
    bool out_is_null;
};

const char *operation_name(enum operation operation);

/* Makes the call with library and reference and reports whatever differs between them, or from the answer. */
void compare_call(const struct call *call, uint32_t expected_answer);

/* Reports a difference between the library's last runs of P and this number. */
void compare_runs(uint32_t expected);

/* Reports a difference between the library's last output and these bytes. */
void compare_output(const uint8_t *expected, size_t length);

/* Copies the library's last output, which has so many bytes. */
void take_output(uint8_t *to, size_t length);

#endif
