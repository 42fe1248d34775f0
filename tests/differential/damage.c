/* Sealed messages that are changed in one way before they are opened. */

#include "cases.h"
#include "families.h"

enum { REPEATS = 18 };

struct damage {
    const char *name;
    size_t (*variants)(struct instance instance);
    void (*apply)(struct message *message, struct call *open, size_t variant, struct prng *prng);
};

static size_t once(struct instance instance)
{
    (void)instance;
    return 1;
}

static size_t thrice(struct instance instance)
{
    (void)instance;
    return 3;
}

static size_t sixteen_times(struct instance instance)
{
    (void)instance;
    return 16;
}

static size_t each_tag_bit(struct instance instance)
{
    return 8 * tag_length(instance);
}

static size_t each_tag_neighbours(struct instance instance)
{
    return tag_length(instance) - 1;
}

static void flip_tag_bit(struct message *message, struct call *open, size_t variant, struct prng *prng)
{
    (void)open, (void)prng;
    message->sealed[message->lengths.body + variant / 8] ^= (uint8_t)(1 << variant % 8);
}

/* Two changes that cancel each other wherever differences are added or xored together. */
static void flip_tag_neighbours(struct message *message, struct call *open, size_t variant, struct prng *prng)
{
    (void)open, (void)prng;
    message->sealed[message->lengths.body + variant] ^= 0x80;
    message->sealed[message->lengths.body + variant + 1] ^= 0x80;
}

/* Variant 0 takes one byte away, the last one as many as a tag has. */
static void cut(struct message *message, struct call *open, size_t variant, struct prng *prng)
{
    size_t taken_away = variant + 1;

    (void)prng;
    open->body.length -= taken_away;
    open->out_len = message->lengths.body >= taken_away ? message->lengths.body - taken_away : 0;
}

static void flip_some_bits(uint8_t *byte, struct prng *prng)
{
    *byte ^= (uint8_t)(1 + prng_below(prng, 255));
}

/* The first byte, the last byte, then any; an empty body has only its tag to change. */
static void change_ciphertext(struct message *message, struct call *open, size_t variant, struct prng *prng)
{
    size_t length = message->lengths.body > 0 ? message->lengths.body : open->body.length;
    size_t place = variant == 0 ? 0 : variant == 1 ? length - 1 : prng_below(prng, length);

    flip_some_bits(&message->sealed[place], prng);
}

/* Another byte, or one byte less, or one more; an empty part can only get one more. */
static void change_part(uint8_t *part, struct bytes *lent, size_t variant, struct prng *prng)
{
    if (variant == 0 && lent->length > 0)
        flip_some_bits(&part[prng_below(prng, lent->length)], prng);
    else if (variant == 1 && lent->length > 0)
        lent->length--;
    else
        part[lent->length++] = 0;
}

static void change_header(struct message *message, struct call *open, size_t variant, struct prng *prng)
{
    change_part(message->header, &open->header, variant, prng);
}

static void change_trailer(struct message *message, struct call *open, size_t variant, struct prng *prng)
{
    change_part(message->trailer, &open->trailer, variant, prng);
}

static void change_key(struct message *message, struct call *open, size_t variant, struct prng *prng)
{
    (void)open;
    flip_some_bits(&message->key[variant], prng);
}

static void change_nonce(struct message *message, struct call *open, size_t variant, struct prng *prng)
{
    (void)open;
    flip_some_bits(&message->nonce[variant], prng);
}

static void change_rounds(struct message *message, struct call *open, size_t variant, struct prng *prng)
{
    (void)message, (void)variant, (void)prng;
    open->rounds = open->rounds == 4 ? 6 : 4;
}

static const struct damage damages[] = {
    {"tag-bit", each_tag_bit, flip_tag_bit},
    {"tag-neighbours", each_tag_neighbours, flip_tag_neighbours},
    {"cut", tag_length, cut},
    {"ciphertext", sixteen_times, change_ciphertext},
    {"header", thrice, change_header},
    {"trailer", thrice, change_trailer},
    {"key", tag_length, change_key},
    {"nonce", tag_length, change_nonce},
    {"rounds", once, change_rounds},
};

static void one_damage(struct message *message, struct instance instance, const struct damage *damage, size_t variant,
                       int repeat)
{
    struct prng prng;
    struct call open;

    if (!case_begins("damage %u %u %s %zu %d", instance.width, instance.rounds, damage->name, variant, repeat))
        return;
    prng = case_prng();
    message_fill(message, instance, random_lengths(instance, &prng), &prng);
    open = open_call(message);
    damage->apply(message, &open, variant, &prng);
    compare_call(&open, open.body.length < tag_length(instance) ? TOO_SHORT : BAD_TAG);
}

static void all_damages(struct message *message, struct instance instance, int repeat)
{
    for (size_t kind = 0; kind < sizeof damages / sizeof *damages; kind++)
        for (size_t variant = 0; variant < damages[kind].variants(instance); variant++)
            one_damage(message, instance, &damages[kind], variant, repeat);
}

void damaged_messages(struct message *message)
{
    family_begins("damage");
    for (int repeat = 1; repeat <= REPEATS; repeat++)
        for (int i = 0; i < INSTANCES; i++)
            all_damages(message, instances[i], repeat);
}
