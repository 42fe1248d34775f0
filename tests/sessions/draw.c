/* The calls of a script, each as the session that it meets needs it, or bent. */

#include "maker.h"

void send_start(struct maker *m, enum kind kind, bool is_bent)
{
    const struct message *message = &m->job.message;
    size_t tag = tag_length(message->width);
    struct edition edition = m->job.edition;
    struct word words[] = {{message->width, {0}},      {message->rounds, {0}}, {0, {message->key, tag}},
                           {0, {message->nonce, tag}}, {edition.job, {0}},     {edition.revision, {0}}};

    send_call(m, kind == SEALING ? "sealing" : "checking", words, is_bent);
}

/* A cut of what the job still has for this part, the rest of a long part often at once. Under invented numbers any
   bytes do, often up to the limit or one byte over it. */
static struct bytes next_cut(struct maker *m, unsigned part, uint64_t offset)
{
    const struct session *s = &m->model.session;
    uint64_t room = part_limits[part] - offset;
    struct bytes planned = job_part(&m->job, s->kind, part);
    size_t length = draw_length(&m->prng, s->joined.width);

    if (!session_is_certain(s)) {
        length = room < length || (room < 1000 && chance(m, 3)) ? room + prng_below(&m->prng, 2) : length;
        return random_bytes(m, length);
    }
    if (offset >= planned.length)
        return (struct bytes){NULL, 0};
    planned = (struct bytes){planned.at + offset, planned.length - offset};
    if (planned.length > length && !(planned.length > 5000 && chance(m, 2)))
        planned.length = length;
    return planned;
}

/* Where all that the job has for a part is taken, or now and then before, the next part comes. */
static unsigned next_part(struct maker *m)
{
    const struct session *s = &m->model.session;
    unsigned part = s->numbers.standing > CLOSED ? s->numbers.standing - 1 : 0;

    while (part < TRAILER && (s->numbers.counts[part] >= job_part(&m->job, s->kind, part).length || chance(m, 40))) {
        part++;
        if (chance(m, 3))
            break;
    }
    return part;
}

void send_piece(struct maker *m, bool is_bent)
{
    const struct session *s = &m->model.session;
    unsigned part = next_part(m);
    uint64_t offset = s->numbers.counts[part];
    struct bytes cut = next_cut(m, part, offset);
    size_t out_len = part == BODY && s->kind == SEALING ? cut.length : 0;
    struct edition edition = s->numbers.edition;
    struct word words[] = {{edition.job, {0}}, {edition.revision, {0}}, {part, {0}},
                           {offset, {0}},      {0, cut},                {out_len, {0}}};

    send_call(m, "piece", words, is_bent);
}

/* Seldom the call that is for the other kind. */
void send_close(struct maker *m, bool is_bent)
{
    const struct session *s = &m->model.session;
    struct bytes tag = job_tag(&m->job);
    struct edition edition = s->numbers.edition;
    struct word words[] = {{edition.job, {0}}, {edition.revision, {0}}, {tag.length, tag}};

    send_call(m, (s->kind == SEALING) != chance(m, 30) ? "close" : "check", words, is_bent);
}

void send_one_call(struct maker *m, bool is_bent)
{
    const struct message *message = &m->job.message;
    const struct buffer *parts = message->parts;
    bool is_seal = chance(m, 2);
    size_t tag = tag_length(message->width);
    struct word words[] = {{message->width, {0}},
                           {message->rounds, {0}},
                           {0, {message->key, tag}},
                           {0, {message->nonce, tag}},
                           {0, bytes_of(&parts[NOTE])},
                           {0, bytes_of(is_seal ? &parts[BODY] : &m->job.sealed)},
                           {0, bytes_of(&parts[TRAILER])},
                           {parts[BODY].length + (is_seal ? tag : 0), {0}}};

    send_call(m, is_seal ? "seal" : "open", words, is_bent);
}

static void send_numbers(struct maker *m, const struct numbers *n, bool is_bent)
{
    struct word words[] = {{n->counts[NOTE], {0}}, {n->counts[BODY], {0}}, {n->counts[TRAILER], {0}},
                           {n->rounds, {0}},       {n->edition.job, {0}},  {n->edition.revision, {0}},
                           {n->standing, {0}}};

    send_call(m, "put", words, is_bent);
}

/* Half of them are nearly full, or have one byte too many. */
void send_invented(struct maker *m)
{
    const struct numbers own = m->model.session.numbers;
    struct numbers numbers = {.rounds = 4, .edition = own.edition};
    unsigned part = (unsigned)prng_below(&m->prng, PARTS);
    uint64_t limit = part_limits[part], some = prng_below(&m->prng, 300);
    bool is_full = chance(m, 2);

    numbers.standing = part + 1;
    numbers.counts[part] = PICK(&m->prng, limit - some, limit - 1, limit, limit + 1);
    send_numbers(m, is_full ? &numbers : &own, !is_full);
    for (size_t tries = 1 + prng_below(&m->prng, 3); tries > 0; tries--)
        if (chance(m, 3))
            send_close(m, chance(m, 3));
        else
            send_piece(m, chance(m, 3));
    if (!chance(m, 4))
        send_numbers(m, &own, false);
}
