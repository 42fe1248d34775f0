/* Sealed segments that are changed, or opened as what they are not: each is answered 10. */

#include "cases.h"
#include "families.h"
#include "segment.h"

enum { REPEATS = 4 };

struct damage {
    const char *name;
    size_t variants;
    void (*apply)(struct message *message, struct call *open, size_t variant, struct prng *prng);
};

static void flip_tag_bit(struct message *message, struct call *open, size_t variant, struct prng *prng)
{
    size_t bit = variant * open->key.length / 16 + prng_below(prng, open->key.length / 16);

    message->sealed[message->lengths.body + bit / 8] ^= (uint8_t)(1 << bit % 8);
}

static void change_ciphertext(struct message *message, struct call *open, size_t variant, struct prng *prng)
{
    size_t length = open->body.length;
    size_t place = variant == 0 ? 0 : variant == 1 ? message->lengths.body - 1 : prng_below(prng, length);

    message->sealed[place] ^= (uint8_t)(1 + prng_below(prng, 255));
}

static void change_job_nonce(struct message *message, struct call *open, size_t variant, struct prng *prng)
{
    message->nonce[variant % open->nonce.length] ^= (uint8_t)(1 + prng_below(prng, 255));
}

static void change_key(struct message *message, struct call *open, size_t variant, struct prng *prng)
{
    message->key[variant % open->key.length] ^= (uint8_t)(1 + prng_below(prng, 255));
}

/* The neighbours, the same index in other low bits, and any other. */
static void change_index(struct message *message, struct call *open, size_t variant, struct prng *prng)
{
    const uint64_t bits = variant < 20 ? UINT64_C(1) << variant : 1 + prng_below(prng, LAST_INDEX - 1);

    (void)message;
    open->place.index ^= bits;
}

/* The same text, as the job's last segment or as one that is not. */
static void change_flag(struct message *message, struct call *open, size_t variant, struct prng *prng)
{
    uint32_t last = variant == 0 ? 0 : yes[variant - 1];

    segment_fill(message, message->instance, place_at(message->place.index % LAST_INDEX, last, prng), 10,
                 SEGMENT_BYTES, prng);
    *open = segment_call(message, SEGMENT_OPEN);
    open->place.last = last == 0 ? 1 : 0;
}

static void change_job(struct message *message, struct call *open, size_t variant, struct prng *prng)
{
    (void)message, (void)prng;
    open->place.job ^= UINT64_C(1) << variant;
}

static void change_revision(struct message *message, struct call *open, size_t variant, struct prng *prng)
{
    (void)message, (void)prng;
    open->place.revision ^= UINT64_C(1) << variant;
}

static void exchange_job_and_revision(struct message *message, struct call *open, size_t variant, struct prng *prng)
{
    (void)variant, (void)prng;
    open->place.job = message->place.revision;
    open->place.revision = message->place.job;
}

/* Another byte, or one byte less, or one more; an empty note can only get one more. */
static void change_note(struct message *message, struct call *open, size_t variant, struct prng *prng)
{
    if (variant == 0 && open->header.length > 0) {
        size_t place = prng_below(prng, open->header.length);

        message->header[place] ^= (uint8_t)(1 + prng_below(prng, 255));
    } else if (variant == 1 && open->header.length > 0)
        open->header.length--;
    else
        message->header[open->header.length++] = 0;
}

static void change_rounds(struct message *message, struct call *open, size_t variant, struct prng *prng)
{
    (void)message, (void)variant, (void)prng;
    open->rounds = open->rounds == 4 ? 6 : 4;
}

static const struct damage damages[] = {
    {"tag-bit", 128, flip_tag_bit},
    {"ciphertext", 16, change_ciphertext},
    {"job-nonce", 24, change_job_nonce},
    {"key", 32, change_key},
    {"index", 24, change_index},
    {"flag", 1 + YESES, change_flag},
    {"job", 64, change_job},
    {"revision", 64, change_revision},
    {"job-revision", 1, exchange_job_and_revision},
    {"note", 3, change_note},
    {"rounds", 1, change_rounds},
};

/* A last segment of some blocks is of the right length at every index. */
static void one_damage(struct message *message, struct instance instance, const struct damage *damage, size_t variant,
                       int repeat)
{
    struct prng prng;
    struct place place;
    struct call open;
    size_t note_length;

    if (!case_begins("segment damage %u %u %s %zu %d", instance.width, instance.rounds, damage->name, variant, repeat))
        return;
    prng = case_prng();
    place = place_at(prng_below(&prng, LAST_INDEX + 1), 1, &prng);
    note_length = prng_below(&prng, 200);
    segment_fill(message, instance, place, note_length, 1 + prng_below(&prng, 300), &prng);
    open = segment_call(message, SEGMENT_OPEN);
    damage->apply(message, &open, variant, &prng);
    compare_call(&open, BAD_TAG);
}

void damaged_segments(struct message *message)
{
    family_begins("segment damage");
    for (int repeat = 1; repeat <= REPEATS; repeat++)
        for (int i = 0; i < INSTANCES; i++)
            for (size_t kind = 0; kind < sizeof damages / sizeof *damages; kind++)
                for (size_t variant = 0; variant < damages[kind].variants; variant++)
                    one_damage(message, instances[i], &damages[kind], variant, repeat);
}
