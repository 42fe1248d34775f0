/* Writes calls as lines, and sends them to the script and to the model. */

#include "maker.h"

#include <inttypes.h>

#include "script.h"

void maker_start(struct maker *m, struct buffer *script, struct prng prng)
{
    m->script = script;
    m->prng = prng;
    m->lines = m->spare.length = m->same.length = 0;
    buffer_fill(&m->same, 0x5c, LONGEST_ARGUMENT);
    buffer_fill(&m->spare, 0, LONGEST_ARGUMENT);
    prng_fill(&m->prng, m->spare.at, m->spare.length);
    model_start(&m->model);
    job_make(&m->job, &m->prng);
}

bool chance(struct maker *m, size_t in)
{
    return prng_below(&m->prng, in) == 0;
}

struct bytes random_bytes(struct maker *m, size_t length)
{
    return (struct bytes){m->spare.at + prng_below(&m->prng, m->spare.length - length + 1), length};
}

/* Bytes of one value go mostly in their short form. */
static void add_bytes(struct maker *m, struct bytes bytes)
{
    size_t same = 0;

    while (same < bytes.length && bytes.at[same] == bytes.at[0])
        same++;
    if (bytes.length > 0 && same == bytes.length && !chance(m, bytes.length < 1000 ? 4 : 40))
        buffer_print(&m->line, "%02x*%zu", bytes.at[0], bytes.length);
    else
        buffer_hex(&m->line, bytes);
}

static void give(struct maker *m, const char *front, struct bytes line)
{
    size_t before = m->script->length;

    buffer_print(m->script, "%s", front);
    buffer_add(m->script, line.at, line.length);
    model_answer(&m->model, (struct bytes){m->script->at + before, m->script->length - before});
    buffer_print(m->script, "\n");
    m->lines++;
}

/* Sends the line at hand, sometimes quiet, sometimes twice, and between others that change nothing. */
static void send_line(struct maker *m)
{
    static struct buffer spoiled;
    static const struct bytes nothing;
    static const char *const others[] = {"", "#", "# no call", "quiet", "quiet quiet show", "quiet # no call", "?",
                                         "constants 32", "constants 64", "quiet constants 64"};
    struct bytes line = bytes_of(&m->line);

    if (chance(m, 9)) {
        spoiled.length = 0;
        buffer_add(&spoiled, line.at, line.length);
        spoil(&spoiled, &m->prng);
        give(m, chance(m, 8) ? "quiet " : "", bytes_of(&spoiled));
    }
    if (chance(m, 20))
        give(m, others[prng_below(&m->prng, sizeof others / sizeof *others)], nothing);
    give(m, chance(m, 10) ? "quiet " : "", line);
    if (chance(m, 14))
        give(m, "", line);
    if (chance(m, 6))
        give(m, "show", nothing);
}

void send_call(struct maker *m, const char *name, struct word *words, bool is_bent)
{
    const char *forms = find_verb((struct bytes){(const uint8_t *)name, strlen(name)})->forms;

    if (is_bent)
        bend_some(m, forms, words);
    m->line.length = 0;
    buffer_print(&m->line, "%s", name);
    for (size_t i = 0; forms[i] != '\0'; i++) {
        buffer_print(&m->line, " ");
        if (forms[i] == 'b')
            add_bytes(m, words[i].bytes);
        else if (forms[i] == 'p' || forms[i] == 's')
            buffer_print(&m->line, "%s", standing_names[words[i].number + (forms[i] == 'p')]);
        else
            buffer_print(&m->line, "%" PRIu64, words[i].number);
    }
    send_line(m);
}
