#ifndef MESSAGE_H
#define MESSAGE_H

#include "compare.h"
#include "prng.h"

enum { EDGE_LIMIT = 65536, BODY_LIMIT = 16777216, LONGEST_KEY = 80, LONGEST_TAG = 32 };

/* A width with its rounds. */
struct instance {
    uint32_t width, rounds;
};

enum { INSTANCES = 4 };

extern const struct instance instances[INSTANCES];

size_t tag_length(struct instance instance);

size_t rate_of(struct instance instance);

struct lengths {
    size_t header, body, trailer;
};

/* Something to seal, and its sealed text; the parts have room for one byte over the limit. The place is a segment's. */
struct message {
    struct instance instance;
    struct lengths lengths;
    struct place place;
    uint8_t key[LONGEST_KEY], nonce[LONGEST_KEY];
    uint8_t *header, *body, *trailer, *sealed;
};

void message_allocate(struct message *message);

void message_free(struct message *message);

/* Fills the message with random bytes, and leaves its sealed text alone. */
void message_draw(struct message *message, struct instance instance, struct lengths lengths, struct prng *prng);

/* Fills the message and seals it with the reference; over a limit the sealed text is random. */
void message_fill(struct message *message, struct instance instance, struct lengths lengths, struct prng *prng);

size_t sealed_length(const struct message *message);

/* Lengths up to a few blocks, the empty part and the edges of blocks often among them. */
struct lengths random_lengths(struct instance instance, struct prng *prng);

struct call seal_call(const struct message *message);

struct call open_call(const struct message *message);

/* Compares sealing, then opening, then the opened text with the body. */
void compare_there_and_back(const struct message *message);

#endif
