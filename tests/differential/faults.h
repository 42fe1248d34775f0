#ifndef FAULTS_H
#define FAULTS_H

#include "prng.h"

#include <stdbool.h>
#include <stddef.h>
#include <stdint.h>

/* What can be wrong with a call, and its answer; a table has them in the order in which their answers are given,
   and a set of them has a bit for each. */
struct fault {
    const char *name;
    uint32_t answer;
};

bool has(unsigned set, int fault);

unsigned only(int fault);

/* The answer of the first fault in the set, or 0. */
uint32_t first_answer(const struct fault *faults, int count, unsigned set);

/* Writes the names in the set, a plus between them. */
void join_names(char *names, const struct fault *faults, int count, unsigned set);

/* A length near the right one that is not it. */
size_t other_length(size_t right, struct prng *prng);

#endif
