/* The words of a call, each by its form. */

#include <string.h>

#include "language.h"

const char *const standing_names[STANDINGS] = {"closed", "note", "body", "trailer"};

bool word_is(struct bytes word, const char *text)
{
    return word.length == strlen(text) && memcmp(word.at, text, word.length) == 0;
}

static bool read_number(uint64_t *number, struct bytes word, uint64_t most)
{
    if (word.length == 0 || (word.at[0] == '0' && word.length > 1))
        return false;
    *number = 0;
    for (size_t i = 0; i < word.length; i++) {
        unsigned digit = word.at[i] - (unsigned)'0';

        if (digit > 9 || digit > most || *number > (most - digit) / 10)
            return false;
        *number = 10 * *number + digit;
    }
    return true;
}

static bool read_pair(uint8_t *byte, const uint8_t *pair)
{
    static const char digits[] = "0123456789abcdef";
    const char *high = memchr(digits, pair[0], 16), *low = memchr(digits, pair[1], 16);

    if (high == NULL || low == NULL)
        return false;
    *byte = (uint8_t)(16 * (high - digits) + (low - digits));
    return true;
}

static bool read_bytes(struct buffer *bytes, struct bytes word)
{
    uint64_t times;
    uint8_t byte;

    bytes->length = 0;
    if (word_is(word, "-"))
        return true;
    if (word.length > 3 && word.at[2] == '*') {
        struct bytes behind = {word.at + 3, word.length - 3};

        if (!read_pair(&byte, word.at) || !read_number(&times, behind, LONGEST_ARGUMENT) || times == 0)
            return false;
        buffer_fill(bytes, byte, times);
        return true;
    }
    if (word.length == 0 || word.length % 2 != 0 || word.length / 2 > LONGEST_ARGUMENT)
        return false;
    for (size_t i = 0; i < word.length; i += 2) {
        if (!read_pair(&byte, word.at + i))
            return false;
        buffer_fill(bytes, byte, 1);
    }
    return true;
}

/* Parts and standings go by the same names; a part is one less than its standing. */
static bool read_name(uint64_t *number, struct bytes word, uint64_t first)
{
    for (uint64_t i = first; i < STANDINGS; i++)
        if (word_is(word, standing_names[i])) {
            *number = i - first;
            return true;
        }
    return false;
}

bool read_argument(struct argument *argument, char form, struct bytes word)
{
    switch (form) {
    case 'w':
        return read_number(&argument->number, word, 64) && (argument->number == 32 || argument->number == 64);
    case 'i':
        return read_number(&argument->number, word, UINT32_MAX);
    case 'u':
        return read_number(&argument->number, word, UINT64_MAX);
    case 'n':
        return read_number(&argument->number, word, LONGEST_ARGUMENT);
    case 'f':
        return read_number(&argument->number, word, 1);
    case 'p':
        return read_name(&argument->number, word, 1);
    case 's':
        return read_name(&argument->number, word, 0);
    default:
        return read_bytes(&argument->bytes, word);
    }
}
