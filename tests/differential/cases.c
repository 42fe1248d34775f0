/* Counts, names and selects the cases, and reports those that differ. */

#define _POSIX_C_SOURCE 200809L

#include "cases.h"

#include <inttypes.h>
#include <stdarg.h>
#include <stdio.h>
#include <stdlib.h>
#include <string.h>
#include <unistd.h>

#include "crash.h"

enum { PROGRESS_EVERY = 5000, DIFFERENCES_SHOWN = 10, SECONDS_PER_CASE = 60, NAME_SIZE = 160 };

static const struct options *options;
static const char *family;
static char name[NAME_SIZE];
static uint64_t number;
static uint64_t cases_run, cases_run_before_family;
static uint64_t cases_differing, last_differing;
static char command[8192];

void cases_start(const struct options *given)
{
    options = given;
    setvbuf(stdout, NULL, _IOLBF, BUFSIZ);
    snprintf(command, sizeof command, "%s%s'%s' '%s' --seed %" PRIu64 " --only '", options->runner,
             *options->runner ? " " : "", options->program, options->vectors, options->seed);
    printf("seed %" PRIu64 "\n", options->seed);
    name_case_at_crash(name, command);
}

static void family_ends(void)
{
    if (family != NULL && cases_run > cases_run_before_family)
        printf("%s: %" PRIu64 " cases\n", family, cases_run - cases_run_before_family);
    cases_run_before_family = cases_run;
}

void family_begins(const char *next)
{
    family_ends();
    family = next;
}

static bool case_is_wanted(void)
{
    if (options->only != NULL)
        return strcmp(options->only, name) == 0;
    return options->only_number == 0 || options->only_number == number;
}

bool case_begins(const char *format, ...)
{
    va_list arguments;

    number++;
    va_start(arguments, format);
    vsnprintf(name, sizeof name, format, arguments);
    va_end(arguments);
    if (!case_is_wanted())
        return false;
    if (cases_run > 0 && cases_run % PROGRESS_EVERY == 0)
        printf("%" PRIu64 " cases so far, in %s\n", cases_run, family);
    cases_run++;
    alarm(SECONDS_PER_CASE);
    return true;
}

uint64_t case_number(void)
{
    return number;
}

struct prng case_prng(void)
{
    return prng_start(options->seed, number);
}

static void name_differing_case(void)
{
    if (last_differing == number)
        return;
    last_differing = number;
    if (++cases_differing > DIFFERENCES_SHOWN) {
        printf("stopped after %d differing cases\n", DIFFERENCES_SHOWN);
        exit(1);
    }
    printf("DIFFERENCE in case %" PRIu64 ": %s\n", number, name);
    printf("  run it alone: %s%s'\n", command, name);
}

void case_differs(const char *format, ...)
{
    va_list arguments;

    name_differing_case();
    printf("  ");
    va_start(arguments, format);
    vprintf(format, arguments);
    va_end(arguments);
    printf("\n");
}

int cases_finish(void)
{
    family_ends();
    if (cases_run == 0) {
        printf("no such case\n");
        return 2;
    }
    printf("%" PRIu64 " cases, %" PRIu64 " differences\n", cases_run, cases_differing);
    return cases_differing == 0 ? 0 : 1;
}
