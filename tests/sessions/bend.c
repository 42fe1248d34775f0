/* Changes words of a call to others of their form, most often so that it is refused. */

#include "maker.h"

/* One bit is another one, or two of them that lie in neighbouring bytes. */
static struct bytes with_changed_bit(struct maker *m, struct bytes right, struct buffer *changed)
{
    size_t place = prng_below(&m->prng, right.length);
    uint8_t bit = (uint8_t)(1 << prng_below(&m->prng, 8));

    changed->length = 0;
    buffer_add(changed, right.at, right.length);
    changed->at[place] ^= bit;
    if (chance(m, 3))
        changed->at[(place + 1) % right.length] ^= bit;
    return bytes_of(changed);
}

static struct bytes other_bytes(struct maker *m, struct bytes right, struct buffer *changed)
{
    size_t shorter = prng_below(&m->prng, right.length + 1), over = LONGEST_ARGUMENT - prng_below(&m->prng, 105);

    if (right.length > 0 && !chance(m, 3))
        return with_changed_bit(m, right, changed);
    if (chance(m, 3))
        return (struct bytes){m->same.at, over};
    return chance(m, 2) ? (struct bytes){right.at, shorter} : random_bytes(m, right.length % 60000 + 1);
}

static uint64_t other_number(struct maker *m, uint64_t right)
{
    uint64_t bit = (uint64_t)1 << prng_below(&m->prng, 64), some = prng_below(&m->prng, 300);
    uint64_t limit = part_limits[prng_below(&m->prng, PARTS)];

    return PICK(&m->prng, 0, right - 1, right + 1, right / 2, right ^ bit, right ^ bit, limit, limit + 1, limit - some,
                limit - some, UINT64_MAX, UINT64_MAX - right);
}

static void bend(struct maker *m, char form, struct word *word, struct buffer *changed)
{
    uint64_t right = word->number, bit = (uint64_t)1 << prng_below(&m->prng, 32), any = prng_below(&m->prng, 100);

    switch (form) {
    case 'w':
        word->number = PICK(&m->prng, 32, 64, 33);
        break;
    case 'i':
        word->number = PICK(&m->prng, 0, 1, 3, 4, 5, 6, 8, right - 1, right + 1, 3 * right, right ^ bit, UINT32_MAX);
        break;
    case 'u':
        word->number = other_number(m, right);
        break;
    case 'n':
        word->number = PICK(&m->prng, 0, right - (right > 0), right + 1, right + 1, right / 2, any);
        break;
    case 'f':
        word->number = PICK(&m->prng, 1 - right, 1 - right, 1 - right, 2);
        break;
    case 'p':
        word->number = prng_below(&m->prng, PARTS);
        break;
    case 's':
        word->number = prng_below(&m->prng, STANDINGS);
        break;
    default:
        word->bytes = other_bytes(m, word->bytes, changed);
    }
}

/* Now and then two numbers side by side only change places: a job and its revision, or two counts. */
static bool exchange_some(struct maker *m, const char *forms, struct word *words)
{
    for (size_t i = 0; forms[i] != '\0'; i++)
        if (forms[i] == 'u' && forms[i + 1] == 'u' && chance(m, 8)) {
            struct word first = words[i];

            words[i] = words[i + 1];
            words[i + 1] = first;
            return true;
        }
    return false;
}

void bend_some(struct maker *m, const char *forms, struct word *words)
{
    static struct buffer changed[MOST_ARGUMENTS];
    size_t first = prng_below(&m->prng, strlen(forms));

    if (exchange_some(m, forms, words))
        return;
    for (size_t i = 0; forms[i] != '\0'; i++)
        if (i == first || chance(m, 6))
            bend(m, forms[i], &words[i], &changed[i]);
}
