#ifndef MESSAGE_H
#define MESSAGE_H

#include "buffer.h"
#include "norx.h"

enum { NOTE, BODY, TRAILER, PARTS };

enum { FRONT_BYTES = 16, LONGEST_TAG = 32 };

/* The answers, from number 0 on. */
enum {
    DONE, BAD_KEY_OR_NONCE, BAD_ROUNDS, BAD_TAG_LENGTH, OVER_LIMIT, BAD_OUTPUT, BAD_REVISION, EARLIER_PART, BAD_OFFSET,
    NOT_SOUND, BAD_TAG, BAD_WIDTH, BAD_JOB, BAD_SEGMENT, AFTER_LAST, ANSWERS
};

extern const uint64_t part_limits[PARTS];

/* What a session is for, and what each of its pieces and its close must bring. */
struct edition {
    uint64_t job, revision;
};

/* What a session has; in its note the bytes of its edition stand in front. */
struct message {
    uint32_t width, rounds;
    uint8_t key[LONGEST_TAG], nonce[LONGEST_TAG];
    struct buffer parts[PARTS];
};

size_t tag_length(uint32_t width);

/* The outcome of a call that was refused before P ran. */
struct reference_outcome refused(uint32_t answer);

/* Eight bytes, least first. */
void add_number(struct buffer *buffer, uint64_t number);

/* Puts the bytes of the edition where the note begins. */
void message_begin(struct message *message, struct edition edition);

/* Writes the ciphertext and the tag. */
struct reference_outcome message_seal(const struct message *message, struct buffer *sealed);

/* Opens a message whose body is ciphertext. */
struct reference_outcome message_open(const struct message *message, struct bytes tag);

#endif
