#ifndef LANGUAGE_H
#define LANGUAGE_H

#include "receiver.h"
#include "session.h"

enum { LONGEST_LINE = 400000, LONGEST_ARGUMENT = 65632, MOST_ARGUMENTS = 11 };

/* A number, a flag, a part, a standing, or bytes. */
struct argument {
    uint64_t number;
    struct buffer bytes;
};

/* The program as it should be: the session and the receiver that it holds, the call at hand, and the line that is to
   be written, in which a . stands for a digit that is not known, and a . in front for 0 or 10. */
struct model {
    struct session session;
    struct receiver receiver;
    const struct verb *verb;
    struct argument arguments[MOST_ARGUMENTS];
    bool is_quiet;
    struct buffer output, reply;
};

/* The words behind the verb have these forms. The answer is false where the line is no call after all. */
struct verb {
    const char *name, *forms;
    enum kind kind; /* tells apart two calls that go by one function, and a close from a check */
    bool (*answer)(struct model *model, const struct argument *arguments);
};

/* The verb of this name, or NULL. */
const struct verb *find_verb(struct bytes name);

extern const char *const standing_names[STANDINGS];

/* Reads a word by its form, and says whether it has it: w is 32 or 64, i a number of 32 bits, u one of 64 bits,
   n a length, f a flag, which is 0 or 1, b bytes, p a part, s a standing. */
bool read_argument(struct argument *argument, char form, struct bytes word);

bool word_is(struct bytes word, const char *text);

void model_start(struct model *model);

/* Takes a line without its newline, and leaves the reply. */
void model_answer(struct model *model, struct bytes line);

bool reply_fits(struct bytes reply, struct bytes written);

/* Takes the next line away from the text, which is not empty; the last one may have no newline. */
struct bytes next_line(struct bytes *text);

#endif
