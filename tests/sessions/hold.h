#ifndef HOLD_H
#define HOLD_H

#include "language.h"

/* What was held so far; a text that is no list is answered bad, and not by a number. */
struct tally {
    uint64_t calls, answers[ANSWERS], bad;
};

/* Holds every line that is written to the model of its call, and shows the first one that differs. */
bool hold_lines(const char *name, struct bytes calls, struct bytes written, struct tally *tally);

#endif
