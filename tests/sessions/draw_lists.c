/* The calls on lists: of lists, of texts that nearly are, and of none. */

#include "lists.h"
#include "maker.h"

/* Of any count of digits up to twenty, and often at an end of the 64 bits. */
static uint64_t draw_number(struct prng *prng)
{
    uint64_t any = prng_next(prng);

    any >>= prng_below(prng, 64);
    return PICK(prng, any, any, any, any, 0, 7, UINT64_MAX, UINT64_MAX - any);
}

static struct edition draw_edition(struct prng *prng)
{
    uint64_t job = draw_number(prng);

    return (struct edition){job, draw_number(prng)};
}

/* Few segments most often, seldom some hundred; the last is often at an edge of the rule. */
static uint64_t draw_body(struct prng *prng)
{
    uint64_t full = SEGMENT_BYTES, any = prng_below(prng, SEGMENT_BYTES);
    uint64_t some = prng_below(prng, 16), many = prng_below(prng, 300);
    uint64_t others = PICK(prng, 0, 0, 1, 1, 1, 2, 2, 3, some);

    if (prng_below(prng, 80) == 0)
        others = many;
    return others * full + PICK(prng, 0, 1, full - 1, full, any, any, any);
}

/* Around the longest that a list is written for, and far past it. */
static uint64_t draw_far_body(struct prng *prng)
{
    uint64_t limit = (uint64_t)MOST_SEGMENTS * SEGMENT_BYTES, any = draw_number(prng);

    return PICK(prng, limit - SEGMENT_BYTES, limit - 1, limit, limit, limit + 1, limit + 1, 2 * limit, any, any,
                UINT64_MAX);
}

/* Of a text that is too long for an output any length is as wrong as another. */
static void send_writing(struct maker *m, struct edition edition, uint64_t length, bool is_bent)
{
    static struct buffer text;
    struct word words[] = {{edition.job, {0}}, {edition.revision, {0}}, {length, {0}}, {0, {0}}};

    text.length = 0;
    add_list(&text, edition, length, LONGEST_ARGUMENT);
    words[3].number = text.length <= LONGEST_ARGUMENT ? text.length : prng_below(&m->prng, 300);
    send_call(m, "list", words, is_bent);
}

void send_list(struct maker *m, bool is_bent)
{
    struct edition edition = draw_edition(&m->prng);

    send_writing(m, edition, draw_body(&m->prng), is_bent);
}

void send_far_list(struct maker *m)
{
    struct edition edition = draw_edition(&m->prng);
    uint64_t length = draw_far_body(&m->prng);

    send_writing(m, edition, length, chance(m, 4));
}

/* Sometimes two lists, one behind the other. */
static void make_text(struct maker *m)
{
    struct edition edition = draw_edition(&m->prng);

    m->text.length = 0;
    add_list(&m->text, edition, draw_body(&m->prng), LONGEST_ARGUMENT);
    if (!chance(m, 15))
        return;
    if (chance(m, 2))
        edition = draw_edition(&m->prng);
    add_list(&m->text, edition, draw_body(&m->prng), LONGEST_ARGUMENT);
}

static void send_text(struct maker *m)
{
    struct word words[] = {{0, bytes_of(&m->text)}};

    send_call(m, "read", words, chance(m, 40));
}

void send_read(struct maker *m, bool is_changed)
{
    make_text(m);
    if (is_changed)
        change_text(m);
    send_text(m);
}

static size_t count_fields(struct bytes text)
{
    size_t fields = 0;

    for (; text.length > 0; fields++)
        next_field(&text);
    return fields;
}

/* All that there are, about as many, or few. */
void send_fields(struct maker *m)
{
    struct word words[] = {{0, {0}}, {0, {0}}};
    size_t all, few = prng_below(&m->prng, 6);

    make_text(m);
    if (!chance(m, 3))
        change_text(m);
    all = count_fields(bytes_of(&m->text));
    words[0].bytes = bytes_of(&m->text);
    words[1].number = PICK(&m->prng, all, all, all + 1, all + few, few, all / 2);
    if (chance(m, 200))
        words[1].number = LONGEST_ARGUMENT + prng_below(&m->prng, 2);
    send_call(m, "fields", words, chance(m, 20));
}

void send_longest_list(struct maker *m)
{
    struct edition edition = draw_edition(&m->prng);

    m->text.length = 0;
    add_list(&m->text, edition, UINT64_MAX, LONGEST_ARGUMENT);
    m->text.length = LONGEST_ARGUMENT;
    while (m->text.at[m->text.length - 1] != '\n')
        m->text.length--;
    send_writing(m, edition, count_fields(bytes_of(&m->text)) / 4 * SEGMENT_BYTES, false);
    send_text(m);
    change_text(m);
    send_text(m);
}
