/* The language of the program vectors: what is to be written for a line of any bytes. */

#include "language.h"

#include <string.h>

/* Takes the first word away; behind the last one nothing is left, and at is NULL. */
static struct bytes next_word(struct bytes *line)
{
    const uint8_t *space = line->length > 0 ? memchr(line->at, ' ', line->length) : NULL;
    struct bytes word = *line;

    *line = (struct bytes){NULL, 0};
    if (space != NULL) {
        size_t length = (size_t)(space - word.at);

        *line = (struct bytes){space + 1, word.length - length - 1};
        word.length = length;
    }
    return word;
}

/* Says whether the line is a call; the model has then answered it. */
static bool answer_call(struct model *m, struct bytes line)
{
    struct bytes word = next_word(&line);

    m->is_quiet = word_is(word, "quiet") && line.at != NULL;
    if (m->is_quiet)
        word = next_word(&line);
    m->verb = find_verb(word);
    if (m->verb == NULL)
        return false;
    for (size_t i = 0; m->verb->forms[i] != '\0'; i++)
        if (line.at == NULL || !read_argument(&m->arguments[i], m->verb->forms[i], next_word(&line)))
            return false;
    return line.at == NULL && m->verb->answer(m, m->arguments);
}

void model_start(struct model *m)
{
    session_clear(&m->session, SEALING, 64);
    receiver_clear(&m->receiver, 64);
}

static bool is_echoed(struct bytes line)
{
    return line.length == 0 || line.at[0] == '#';
}

void model_answer(struct model *m, struct bytes line)
{
    struct bytes whole;

    m->reply.length = 0;
    if (line.length <= LONGEST_LINE && is_echoed(line)) {
        buffer_add(&m->reply, line.at, line.length);
    } else if (line.length > LONGEST_LINE || !answer_call(m, line)) {
        buffer_print(&m->reply, "?");
    } else if (m->is_quiet) {
        whole = bytes_of(&m->reply);
        m->reply.length = next_word(&whole).length;
    }
}

/* How many bytes in front are 0 or 10. */
static size_t verdict_length(struct bytes written)
{
    if (written.length > 1 && memcmp(written.at, "10", 2) == 0)
        return 2;
    return written.length > 0 && written.at[0] == '0' ? 1 : 0;
}

static struct bytes behind(struct bytes text, size_t front)
{
    return (struct bytes){text.at + front, text.length - front};
}

static bool fits_byte_by_byte(struct bytes reply, struct bytes written)
{
    if (written.length != reply.length)
        return false;
    for (size_t i = 0; i < reply.length; i++) {
        uint8_t byte = written.at[i];
        bool is_digit = (byte >= '0' && byte <= '9') || (byte >= 'a' && byte <= 'f');

        if (byte != reply.at[i] && (is_echoed(reply) || reply.at[i] != '.' || !is_digit))
            return false;
    }
    return true;
}

bool reply_fits(struct bytes reply, struct bytes written)
{
    size_t verdict = verdict_length(written);

    if (reply.length == 0 || reply.at[0] != '.')
        return fits_byte_by_byte(reply, written);
    return verdict > 0 && fits_byte_by_byte(behind(reply, 1), behind(written, verdict));
}

struct bytes next_line(struct bytes *text)
{
    const uint8_t *end = memchr(text->at, '\n', text->length);
    struct bytes line = {text->at, end != NULL ? (size_t)(end - text->at) : text->length};
    size_t taken = line.length + (end != NULL);

    *text = (struct bytes){text->at + taken, text->length - taken};
    return line;
}
