#ifndef BENCH_COMPILATIONS_H
#define BENCH_COMPILATIONS_H

#include "norx.h"

/* The reference once for each compilation that tests/bench.sh makes of it, under names of that compilation's own. */

typedef __typeof__(reference_seal_answer) seal_function;
typedef __typeof__(reference_open_answer) open_function;

seal_function gcc_seal_answer, clang_seal_answer, gcc_native_seal_answer, clang_native_seal_answer;
open_function gcc_open_answer, clang_open_answer, gcc_native_open_answer, clang_native_open_answer;

/* The goal is beside those for plain x86-64, which the library is compiled for too. */
struct compilation {
    const char *name;
    int has_goal;
    seal_function *seal;
    open_function *open;
};

static const struct compilation compilations[] = {
    {"gcc", 1, gcc_seal_answer, gcc_open_answer},
    {"clang", 1, clang_seal_answer, clang_open_answer},
#ifdef NATIVE
    {"gcc native", 0, gcc_native_seal_answer, gcc_native_open_answer},
    {"clang native", 0, clang_native_seal_answer, clang_native_open_answer},
#endif
};

enum { COMPILATIONS = sizeof compilations / sizeof *compilations };

#endif
