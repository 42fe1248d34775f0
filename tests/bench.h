#ifndef BENCH_H
#define BENCH_H

#include <stdio.h>
#include <stdlib.h>
#include <time.h>

/* What the benchmarks share. A program that includes this asks for POSIX first. */

static inline double now_by(clockid_t clock)
{
    struct timespec time;

    clock_gettime(clock, &time);
    return (double)time.tv_sec + 1e-9 * (double)time.tv_nsec;
}

static inline double now(void)
{
    return now_by(CLOCK_MONOTONIC);
}

/* Ends a program that would go on to measure something else than it says. */
static inline void demand(int holds, const char *what)
{
    if (holds)
        return;
    fprintf(stderr, "%s\n", what);
    exit(1);
}

#endif
