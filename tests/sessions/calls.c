/* The calls of the language, each answered by the model. */

#include <inttypes.h>

#include "calls.h"

static void write_words(struct model *m, uint32_t width, const uint64_t words[16], bool are_known)
{
    for (int i = 0; i < 16; i++) {
        buffer_print(&m->reply, " ");
        if (are_known)
            buffer_print(&m->reply, "%0*" PRIx64, (int)width / 4, words[i]);
        else
            buffer_fill(&m->reply, '.', width / 4);
    }
}

static bool answer_constants(struct model *m, const struct argument *a)
{
    uint64_t words[16];

    reference_constants((uint32_t)a[0].number, words);
    write_answer(m, DONE);
    write_words(m, (uint32_t)a[0].number, words, true);
    return true;
}

static bool answer_one_call(struct model *m, const struct argument *a)
{
    const struct buffer *key = &a[2].bytes, *nonce = &a[3].bytes, *header = &a[4].bytes, *body = &a[5].bytes,
                        *trailer = &a[6].bytes;
    uint8_t *out = lend_output(m, a[7].number);
    struct reference_outcome outcome = (m->verb->kind == SEALING ? reference_seal : reference_open)(
        (uint32_t)a[0].number, (uint32_t)a[1].number, key->at, key->length, nonce->at, nonce->length, header->at,
        header->length, body->at, body->length, trailer->at, trailer->length, out, m->output.length);

    write_outcome(m, outcome);
    write_output(m, true);
    return true;
}

static bool answer_start(struct model *m, const struct argument *a)
{
    write_answer(m, session_start(&m->session, m->verb->kind, (uint32_t)a[0].number, (uint32_t)a[1].number,
                                  bytes_of(&a[2].bytes), bytes_of(&a[3].bytes), edition_at(&a[4])));
    return true;
}

static bool answer_piece(struct model *m, const struct argument *a)
{
    struct piece piece = {edition_at(a), (unsigned)a[2].number, a[3].number, bytes_of(&a[4].bytes), a[5].number};
    bool certain = session_is_certain(&m->session);
    uint8_t *out = lend_output(m, piece.out_len);
    uint32_t answer;

    if (m->session.kind == CHECKING && piece.out_len != 0)
        return false;
    answer = session_piece(&m->session, &piece, m->is_quiet ? NULL : out);
    write_answer(m, answer);
    write_output(m, certain || answer != DONE);
    return true;
}

static bool answer_close(struct model *m, const struct argument *a)
{
    bool certain = session_is_certain(&m->session);
    uint8_t *out = lend_output(m, a[2].number);
    struct reference_outcome outcome;

    if (m->session.kind != m->verb->kind)
        return false;
    outcome = session_close(&m->session, edition_at(a), out, m->output.length);
    write_outcome(m, outcome);
    write_output(m, certain || outcome.answer != DONE);
    return true;
}

static bool answer_check(struct model *m, const struct argument *a)
{
    bool certain = session_is_certain(&m->session);
    struct reference_outcome outcome;

    if (m->session.kind != m->verb->kind)
        return false;
    outcome = session_check(&m->session, edition_at(a), bytes_of(&a[2].bytes));
    if (!certain && outcome.answer == DONE)
        buffer_print(&m->reply, ". %" PRIu32, outcome.runs);
    else
        write_outcome(m, outcome);
    return true;
}

/* A word's digits are those of its bytes from the last to the first. */
static void write_key(struct model *m, const struct message *message)
{
    size_t word_bytes = message->width / 8;

    for (size_t word = 0; word < 4; word++) {
        buffer_print(&m->reply, " ");
        for (size_t byte = word_bytes; byte > 0; byte--)
            buffer_print(&m->reply, "%02x", message->key[word * word_bytes + byte - 1]);
    }
}

static bool answer_show(struct model *m, const struct argument *a)
{
    const struct session *s = &m->session;
    const struct numbers *n = &s->numbers;
    uint64_t words[16];

    (void)a;
    session_words(s, words);
    write_answer(m, DONE);
    write_words(m, s->joined.width, words, s->words_are_known);
    write_key(m, &s->joined);
    buffer_print(&m->reply, " %" PRIu64 " %" PRIu64 " %" PRIu64 " %" PRIu32 " %" PRIu64 " %" PRIu64 " %s",
                 n->counts[NOTE], n->counts[BODY], n->counts[TRAILER], n->rounds, n->edition.job, n->edition.revision,
                 standing_names[n->standing]);
    return true;
}

static bool answer_put(struct model *m, const struct argument *a)
{
    m->session.numbers = (struct numbers){{a[0].number, a[1].number, a[2].number},
                                          (uint32_t)a[3].number,
                                          edition_at(&a[4]),
                                          (unsigned)a[6].number};
    write_answer(m, DONE);
    return true;
}

static const struct verb verbs[] = {
    {"constants", "w", SEALING, answer_constants},  {"show", "", SEALING, answer_show},
    {"seal", "iibbbbbn", SEALING, answer_one_call}, {"open", "iibbbbbn", CHECKING, answer_one_call},
    {"sealing", "wibbuu", SEALING, answer_start},   {"checking", "wibbuu", CHECKING, answer_start},
    {"close", "uun", SEALING, answer_close},        {"check", "uub", CHECKING, answer_check},
    {"piece", "uupubn", SEALING, answer_piece},     {"put", "uuuiuus", SEALING, answer_put},
    {"take", "bfbn", CHECKING, answer_take},        {"segment", "iibbuubufbn", SEALING, answer_segment},
    {"await", "ufi", CHECKING, answer_await},       {"receiver", "wibbuu", CHECKING, answer_receiver},
    {"list", "uuun", SEALING, answer_list},         {"fields", "bn", CHECKING, answer_fields},
    {"read", "b", CHECKING, answer_read},
};

const struct verb *find_verb(struct bytes name)
{
    for (size_t i = 0; i < sizeof verbs / sizeof *verbs; i++)
        if (word_is(name, verbs[i].name))
            return &verbs[i];
    return NULL;
}
