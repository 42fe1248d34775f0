#ifndef SEGMENT_H
#define SEGMENT_H

#include "message.h"

enum { SEGMENT_BYTES = 65536, LAST_INDEX = 1048575, NOTE_LIMIT = 65520 };

/* The flags that mean yes; the first of them is 1. */
enum { YESES = 6 };

extern const uint32_t yes[YESES];

size_t job_nonce_length(struct instance instance);

/* Fills the message with the segment of this place and seals it with the reference; where that is refused, the sealed
   text is random. */
void segment_fill(struct message *message, struct instance instance, struct place place, size_t note_length,
                  size_t body_length, struct prng *prng);

/* A place with any job and revision, at this index, not complete. */
struct place place_at(uint64_t index, uint32_t last, struct prng *prng);

/* Fills the message with a short last segment of any index; an empty one, at index 0, now and then. */
void small_segment(struct message *message, struct instance instance, struct prng *prng);

/* SEGMENT_SEAL or SEGMENT_OPEN. */
struct call segment_call(const struct message *message, enum operation operation);

/* Compares sealing, then opening, then the opened text with the body. */
void compare_segment_there_and_back(const struct message *message);

#endif
