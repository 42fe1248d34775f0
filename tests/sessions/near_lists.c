/* Texts that are nearly lists: something is changed in what was one. */

#include <inttypes.h>
#include <stdlib.h>

#include "lists.h"
#include "maker.h"

static bool ends_field(uint8_t byte)
{
    return byte == '\t' || byte == '\n';
}

static bool ends_line(uint8_t byte)
{
    return byte == '\n';
}

/* Often where a field or a line ends, and often the very last. */
static size_t draw_place(struct maker *m)
{
    const struct buffer *text = &m->text;
    size_t place = prng_below(&m->prng, text->length);

    if (chance(m, 6))
        return text->length - 1;
    if (chance(m, 2))
        while (place + 1 < text->length && !ends_field(text->at[place]))
            place++;
    return place;
}

/* The zero that ends the likely ones is one of them. */
static uint8_t draw_byte(struct prng *prng)
{
    static const char likely[] = "0123456789\t\t\t\n\n\n\r +-";
    uint8_t any = (uint8_t)prng_next(prng);

    return prng_below(prng, 8) == 0 ? any : (uint8_t)likely[prng_below(prng, sizeof likely)];
}

/* One byte is another one, dropped or added, or two neighbours change places. */
static void change_byte(struct maker *m)
{
    size_t place = draw_place(m), next = (place + 1) % m->text.length;
    uint8_t byte = draw_byte(&m->prng), own = m->text.at[place];

    switch (prng_below(&m->prng, 4)) {
    case 0:
        m->text.at[place] = byte;
        break;
    case 1:
        buffer_replace(&m->text, place, place + 1, (struct bytes){NULL, 0});
        break;
    case 2:
        place += chance(m, 2);
        buffer_replace(&m->text, place, place, (struct bytes){&byte, 1});
        break;
    default:
        m->text.at[place] = m->text.at[next];
        m->text.at[next] = own;
    }
}

/* Some field or line of a list, without what ends it. */
static struct bytes some_part(struct maker *m, bool (*ends)(uint8_t byte))
{
    const uint8_t *begin = m->text.at + prng_below(&m->prng, m->text.length), *end = begin;

    while (begin > m->text.at && !ends(begin[-1]))
        begin--;
    while (!ends(*end))
        end++;
    return (struct bytes){begin, (size_t)(end - begin)};
}

/* A neighbour of the right one, another by a bit, or one at an edge of the rule. */
static void add_other_number(struct maker *m, struct buffer *field, uint64_t right)
{
    uint64_t full = SEGMENT_BYTES, bit = (uint64_t)1 << prng_below(&m->prng, 64);

    buffer_print(field, "%" PRIu64,
                 PICK(&m->prng, right - 1, right + 1, right ^ bit, right + full, right + ((uint64_t)1 << 32), 0, 1,
                      full - 1, full, full + 1, 2 * full));
}

/* With 2 to the 64 added, whose first ten digits stay: in 64 bits it would be the right number. */
static void add_past_64_bits(struct buffer *field, uint32_t right)
{
    buffer_print(field, "1844674407%" PRIu64, 3709551616 + (uint64_t)right);
}

static void add_framed(struct maker *m, struct buffer *field, struct bytes right)
{
    static const char *const frames[][2] = {
        {"0", ""},   {"00", ""}, {"1", ""},  {"", "0"},  {"+", ""},    {"-", ""},
        {" ", ""},   {"", " "},  {"", "\r"}, {"\t", ""}, {"", "\t"},   {"", "\n"},
        {"", "\t0"}, {"0x", ""}, {"", ".0"}, {"", "e0"}, {"\"", "\""}, {"18446744073709551616", ""}};
    const char *const *frame = frames[prng_below(&m->prng, sizeof frames / sizeof *frames)];

    buffer_print(field, "%s", frame[0]);
    buffer_add(field, right.at, right.length);
    buffer_print(field, "%s", frame[1]);
}

/* One field is empty, another number, or the right one in another form. */
static void change_field(struct maker *m)
{
    static struct buffer field;
    struct bytes right = some_part(m, ends_field);
    uint64_t number = strtoull((const char *)right.at, NULL, 10);
    size_t begin = (size_t)(right.at - m->text.at), die = prng_below(&m->prng, 100);

    field.length = 0;
    if (die < 48)
        add_other_number(m, &field, number);
    else if (die < 92)
        add_framed(m, &field, right);
    else if (die < 96 && number <= UINT32_MAX)
        add_past_64_bits(&field, (uint32_t)number);
    buffer_replace(&m->text, begin, begin + right.length, bytes_of(&field));
}

/* The length that a line ends in is at an edge of the rule. */
static void change_length(struct maker *m)
{
    static struct buffer length;
    struct bytes line = some_part(m, ends_line);
    size_t end = (size_t)(line.at - m->text.at) + line.length, begin = end;
    uint64_t full = SEGMENT_BYTES;

    while (!ends_field(m->text.at[begin - 1]))
        begin--;
    length.length = 0;
    buffer_print(&length, "%" PRIu64, PICK(&m->prng, 0, 0, 1, full - 1, full, full + 1, 2 * full));
    buffer_replace(&m->text, begin, end, bytes_of(&length));
}

/* A line is dropped, or stands twice, or there is another before it. */
static void change_line(struct maker *m)
{
    static struct buffer line;
    struct bytes right = some_part(m, ends_line);
    size_t begin = (size_t)(right.at - m->text.at), end = begin;

    line.length = 0;
    switch (prng_below(&m->prng, 4)) {
    case 0:
        end += right.length + 1;
        break;
    case 1:
        buffer_add(&line, right.at, right.length + 1);
        break;
    case 2:
        buffer_print(&line, "\n");
        break;
    default:
        buffer_print(&line, "job\trevision\tindex\tlength\n");
    }
    buffer_replace(&m->text, begin, end, bytes_of(&line));
}

/* Bytes of which nothing is meant, most often such as lists have. */
static void make_noise(struct maker *m)
{
    size_t length = prng_below(&m->prng, 60);

    m->text.length = 0;
    if (chance(m, 3))
        buffer_add(&m->text, random_bytes(m, length).at, length);
    else
        for (; length > 0; length--)
            buffer_fill(&m->text, draw_byte(&m->prng), 1);
}

/* Now and then in two places. */
void change_text(struct maker *m)
{
    size_t die = prng_below(&m->prng, 100);

    if (die < 56)
        change_byte(m);
    else if (die < 76)
        change_field(m);
    else if (die < 84)
        change_length(m);
    else if (die < 91)
        change_line(m);
    else if (die < 95)
        m->text.length = prng_below(&m->prng, m->text.length);
    else
        make_noise(m);
    if (m->text.length > 0 && chance(m, 10))
        change_byte(m);
}
