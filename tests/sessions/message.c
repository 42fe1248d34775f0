/* Messages, and what the reference makes of them. */

#include "message.h"

const uint64_t part_limits[PARTS] = {65520, 16777216, 65536};

size_t tag_length(uint32_t width)
{
    return width / 2;
}

struct reference_outcome refused(uint32_t answer)
{
    return (struct reference_outcome){answer, 0};
}

void add_number(struct buffer *buffer, uint64_t number)
{
    for (int i = 0; i < 8; i++)
        buffer_fill(buffer, (uint8_t)(number >> 8 * i), 1);
}

void message_begin(struct message *message, struct edition edition)
{
    struct buffer *note = &message->parts[NOTE];

    note->length = 0;
    add_number(note, edition.job);
    add_number(note, edition.revision);
}

struct reference_outcome message_seal(const struct message *m, struct buffer *sealed)
{
    const struct buffer *note = &m->parts[NOTE], *body = &m->parts[BODY], *trailer = &m->parts[TRAILER];
    size_t tag = tag_length(m->width);

    sealed->length = 0;
    buffer_fill(sealed, 0, body->length + tag);
    return reference_seal(m->width, m->rounds, m->key, tag, m->nonce, tag, note->at, note->length, body->at,
                          body->length, trailer->at, trailer->length, sealed->at, sealed->length);
}

struct reference_outcome message_open(const struct message *m, struct bytes tag)
{
    static struct buffer sealed, opened;
    const struct buffer *note = &m->parts[NOTE], *body = &m->parts[BODY], *trailer = &m->parts[TRAILER];

    opened.length = sealed.length = 0;
    buffer_fill(&opened, 0, body->length);
    buffer_add(&sealed, body->at, body->length);
    buffer_add(&sealed, tag.at, tag.length);
    return reference_open(m->width, m->rounds, m->key, tag.length, m->nonce, tag.length, note->at, note->length,
                          sealed.at, sealed.length, trailer->at, trailer->length, opened.at, opened.length);
}
