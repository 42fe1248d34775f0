#ifndef SESSION_H
#define SESSION_H

#include "message.h"

/* A session open in a part stands at that part plus one. */
enum { CLOSED, OPEN_IN_NOTE, OPEN_IN_BODY, OPEN_IN_TRAILER, STANDINGS };

enum kind { SEALING, CHECKING };

struct numbers {
    uint64_t counts[PARTS];
    uint32_t rounds;
    struct edition edition;
    unsigned standing;
};

/* The accepted pieces are kept joined, until one is accepted under invented numbers. */
struct session {
    enum kind kind;
    struct message joined;
    struct numbers numbers; /* those that the session has, which may be invented */
    struct numbers earned;  /* those that its joined pieces give it */
    bool words_are_known;
};

struct piece {
    struct edition edition;
    unsigned part;
    uint64_t offset;
    struct bytes bytes;
    size_t out_len;
};

/* Makes it the closed session of this kind and width. */
void session_clear(struct session *session, enum kind kind, uint32_t width);

uint32_t session_start(struct session *session, enum kind kind, uint32_t width, uint32_t rounds, struct bytes key,
                       struct bytes nonce, struct edition edition);

/* Whether all that an accepted call gives follows from the joined pieces. */
bool session_is_certain(const struct session *session);

/* Writes the ciphertext of a certain session; where out is NULL nobody asks for it. */
uint32_t session_piece(struct session *session, const struct piece *piece, uint8_t *out);

/* Writes the tag of a certain session. */
struct reference_outcome session_close(struct session *session, struct edition edition, uint8_t *out, size_t out_len);

/* Of a session that is not certain the answer 0 may as well be 10. */
struct reference_outcome session_check(struct session *session, struct edition edition, struct bytes tag);

/* The words of the joined pieces, and all zero of a closed session. */
void session_words(const struct session *session, uint64_t words[16]);

#endif
