#ifndef RUNS_H
#define RUNS_H

#include "message.h"

/* How many times P runs in the sealing of a session that has these counts, which are within their limits. */
uint32_t runs_by_counts(uint32_t width, const uint64_t counts[PARTS]);

#endif
