/* A session by its requirements: numbers, answers, and one reference call for all that it has joined. */

#include "session.h"

#include <string.h>

#include "runs.h"

void session_clear(struct session *s, enum kind kind, uint32_t width)
{
    s->kind = kind;
    s->joined.width = width;
    memset(s->joined.key, 0, sizeof s->joined.key);
    for (int part = 0; part < PARTS; part++)
        s->joined.parts[part].length = 0;
    s->numbers = s->earned = (struct numbers){.standing = CLOSED};
    s->words_are_known = true;
}

uint32_t session_start(struct session *s, enum kind kind, uint32_t width, uint32_t rounds, struct bytes key,
                       struct bytes nonce, struct edition edition)
{
    session_clear(s, kind, width);
    if (rounds != 4 && rounds != 6)
        return BAD_ROUNDS;
    if (key.length != tag_length(width) || nonce.length != tag_length(width))
        return BAD_KEY_OR_NONCE;
    s->joined.rounds = rounds;
    memcpy(s->joined.key, key.at, key.length);
    memcpy(s->joined.nonce, nonce.at, nonce.length);
    message_begin(&s->joined, edition);
    s->numbers = s->earned = (struct numbers){.rounds = rounds, .edition = edition, .standing = OPEN_IN_NOTE};
    return DONE;
}

static bool numbers_are_sound(const struct numbers *n)
{
    if (n->standing == CLOSED || (n->rounds != 4 && n->rounds != 6))
        return false;
    for (unsigned part = 0; part < PARTS; part++)
        if (n->counts[part] > part_limits[part] || (part + 1 > n->standing && n->counts[part] != 0))
            return false;
    return true;
}

bool session_is_certain(const struct session *s)
{
    const struct numbers *a = &s->numbers, *b = &s->earned;

    return s->words_are_known && memcmp(a->counts, b->counts, sizeof a->counts) == 0 && a->rounds == b->rounds &&
           a->edition.job == b->edition.job && a->edition.revision == b->edition.revision &&
           a->standing == b->standing;
}

static uint32_t refuse_piece(const struct session *s, const struct piece *piece)
{
    const struct numbers *n = &s->numbers;

    if (!numbers_are_sound(n))
        return NOT_SOUND;
    if (piece->edition.job != n->edition.job)
        return BAD_JOB;
    if (piece->edition.revision != n->edition.revision)
        return BAD_REVISION;
    if (piece->part + 1 < n->standing)
        return EARLIER_PART;
    if (piece->offset != n->counts[piece->part])
        return BAD_OFFSET;
    if (piece->bytes.length > part_limits[piece->part] - n->counts[piece->part])
        return OVER_LIMIT;
    if (s->kind == SEALING && piece->out_len != (piece->part == BODY ? piece->bytes.length : 0))
        return BAD_OUTPUT;
    return DONE;
}

uint32_t session_piece(struct session *s, const struct piece *piece, uint8_t *out)
{
    static struct buffer sealed;
    uint32_t answer = refuse_piece(s, piece);

    if (answer != DONE)
        return answer;
    s->words_are_known = session_is_certain(s);
    s->numbers.counts[piece->part] += piece->bytes.length;
    s->numbers.standing = piece->part + 1;
    if (!s->words_are_known)
        return DONE;
    s->earned = s->numbers;
    buffer_add(&s->joined.parts[piece->part], piece->bytes.at, piece->bytes.length);
    if (out != NULL && piece->out_len > 0) {
        message_seal(&s->joined, &sealed);
        memcpy(out, sealed.at + piece->offset, piece->out_len);
    }
    return DONE;
}

/* A count over its limit is not sound, so that 9 comes first and 4 is never given. */
static uint32_t refuse_close(const struct session *s, struct edition edition, size_t tag)
{
    const struct numbers *n = &s->numbers;

    if (!numbers_are_sound(n))
        return NOT_SOUND;
    if (edition.job != n->edition.job)
        return BAD_JOB;
    if (edition.revision != n->edition.revision)
        return BAD_REVISION;
    return tag == tag_length(s->joined.width) ? DONE : BAD_TAG_LENGTH;
}

/* For a session that is not certain: its bytes are not known, but how many they are. */
static struct reference_outcome done_by_counts(const struct session *s)
{
    return (struct reference_outcome){DONE, runs_by_counts(s->joined.width, s->numbers.counts)};
}

struct reference_outcome session_close(struct session *s, struct edition edition, uint8_t *out, size_t out_len)
{
    static struct buffer sealed;
    struct reference_outcome outcome = refused(refuse_close(s, edition, out_len));

    if (outcome.answer != DONE)
        return outcome;
    if (session_is_certain(s)) {
        outcome = message_seal(&s->joined, &sealed);
        memcpy(out, sealed.at + s->joined.parts[BODY].length, out_len);
    } else {
        outcome = done_by_counts(s);
    }
    session_clear(s, s->kind, s->joined.width);
    return outcome;
}

struct reference_outcome session_check(struct session *s, struct edition edition, struct bytes tag)
{
    struct reference_outcome outcome = refused(refuse_close(s, edition, tag.length));

    if (outcome.answer != DONE)
        return outcome;
    outcome = session_is_certain(s) ? message_open(&s->joined, tag) : done_by_counts(s);
    session_clear(s, s->kind, s->joined.width);
    return outcome;
}

void session_words(const struct session *s, uint64_t words[16])
{
    const struct message *m = &s->joined;
    const struct buffer *note = &m->parts[NOTE], *body = &m->parts[BODY], *trailer = &m->parts[TRAILER];

    memset(words, 0, 16 * sizeof *words);
    if (s->earned.standing != CLOSED)
        reference_words(m->width, m->rounds, m->key, m->nonce, note->at, note->length, body->at, body->length,
                        trailer->at, trailer->length, s->earned.standing - 1, s->kind == CHECKING, words);
}
