#ifndef CASES_H
#define CASES_H

#include "prng.h"

#include <stdbool.h>
#include <stdint.h>

struct options {
    const char *program;
    const char *vectors;
    const char *runner;   /* stands before the program in the command that is printed */
    const char *only;     /* the one case to run, by its name, or NULL */
    uint64_t only_number; /* the one case to run, by its number, or 0 */
    uint64_t seed;
};

void cases_start(const struct options *options);

/* Ends the family before and begins the next; the last family is ended by cases_finish. */
void family_begins(const char *name);

/* Counts and names the next case, and says whether it is to be run. */
bool case_begins(const char *format, ...) __attribute__((format(printf, 1, 2)));

uint64_t case_number(void);

/* The random bytes of a case follow from the seed and its number alone. */
struct prng case_prng(void);

void case_differs(const char *format, ...) __attribute__((format(printf, 1, 2)));

/* Prints the totals and gives the exit status. */
int cases_finish(void);

#endif
