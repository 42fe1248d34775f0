/* Lines that nobody meant: spoiled ones, and those around the longest. */

#include "language.h"
#include "script.h"

static const char *const odd_words[] = {
    "", "0", "00", "01", "-1", "+1", "0x1", "1e3", "4294967295", "4294967296", "4294967328", "4294967300", "65632",
    "65633", "18446744073709551615", "18446744073709551616", "18446744073709551623", "99999999999999999999999999",
    "a5*0", "a5*1", "a5*65632", "a5*65633", "a5*", "a5*007", "a5*-1", "a5*4294967297", "a5*18446744073709551617",
    "*5", "a5a5*2", "-*3", "--", "-", "a", "abc", "A5", "aG", "/0", "a:", "a`", "note", "body", "trailer", "closed",
    "Body", "notes", "not", "32", "64", "33", "quiet", "show", "seal", "SEAL", "sealin", "a\r", "\r", "\t", "\x80",
    "a5 ", " a5", "0 0"};

enum { ODD_WORDS = sizeof odd_words / sizeof *odd_words };

/* Puts a text in place of the word that begins here. */
static void replace_word(struct buffer *line, size_t begin, const char *text)
{
    size_t end = begin;

    while (end < line->length && line->at[end] != ' ')
        end++;
    buffer_replace(line, begin, end, (struct bytes){(const uint8_t *)text, strlen(text)});
}

/* Where one of the line's words begins. */
static size_t some_word(const struct buffer *line, struct prng *prng)
{
    size_t begin = 0, words = 1;

    for (size_t i = 0; i < line->length; i++)
        if (line->at[i] == ' ' && prng_below(prng, ++words) == 0)
            begin = i + 1;
    return begin;
}

void spoil(struct buffer *line, struct prng *prng)
{
    const char *text = odd_words[prng_below(prng, ODD_WORDS)];
    size_t place = prng_below(prng, line->length);
    uint8_t any = (uint8_t)prng_next(prng);

    switch (prng_below(prng, 6)) {
    case 0:
        line->length = place;
        break;
    case 1:
        line->at[place] = any == '\n' ? ' ' : any;
        break;
    case 2:
        buffer_print(line, prng_below(prng, 2) == 0 ? "%s" : " %s", text);
        break;
    default:
        replace_word(line, some_word(line, prng), text);
    }
}

/* A line of this length with a byte up to the end behind its front. */
static void long_line(struct buffer *script, const char *front, uint8_t byte, size_t length)
{
    buffer_print(script, "%s", front);
    buffer_fill(script, byte, length - strlen(front));
    buffer_print(script, "\n");
}

/* A key and a nonce of this many bytes, and a trailer that fills the line. */
static void long_call(struct buffer *script, size_t key, size_t length)
{
    size_t end = script->length + length, left;

    buffer_print(script, "seal 64 5 ");
    buffer_fill(script, '0', 2 * key);
    buffer_print(script, " ");
    buffer_fill(script, 'f', 2 * key);
    buffer_print(script, " a5*%d ", LONGEST_ARGUMENT);
    buffer_fill(script, '0', 50000);
    buffer_print(script, " ");
    left = end - script->length;
    buffer_fill(script, '7', left - 2 - left % 2);
    buffer_print(script, left % 2 == 0 ? " 7\n" : " 10\n");
}

void long_lines(struct buffer *script)
{
    for (size_t length = LONGEST_LINE - 3; length <= LONGEST_LINE + 3; length++) {
        long_line(script, "#", 'x', length);
        long_line(script, "piece 7 1 note 0 ", 'a', length);
        long_line(script, "show", ' ', length);
        long_call(script, LONGEST_ARGUMENT, length);
        long_call(script, LONGEST_ARGUMENT + 1 - length % 3, LONGEST_LINE - 10000);
    }
    long_line(script, "#", '\r', 3000000);
    long_line(script, "quiet show", 0, 3000000);
}
