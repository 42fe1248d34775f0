/* Holds the program vectors to a model of sessions, segments and lists, on scripts made from a seed. */

#include <inttypes.h>
#include <stdio.h>
#include <stdlib.h>
#include <string.h>
#include <sys/wait.h>

#include "number.h"
#include "sessions/hold.h"
#include "sessions/script.h"

#define DATA_CALLS "crates/vectors/stdin"
#define DATA_WRITTEN "crates/vectors/stdout"
#define SCRIPT_CALLS "target/tests/sessions-calls.txt"
#define SCRIPT_WRITTEN "target/tests/sessions-written.txt"

struct options {
    const char *program, *runner;
    uint64_t seed, script;
};

static void explain_and_exit(const char *program)
{
    fprintf(stderr,
            "usage: %s VECTORS_PROGRAM [--runner WORDS] [--seed NUMBER] [--script NUMBER], or --say alone\n"
            "  --runner  what stands before the program when it is run\n"
            "  --seed    another start of the scripts\n"
            "  --script  run one script, by its number\n"
            "  --say     answer the calls of standard input by the model, with a . for what it does not know\n",
            program);
    exit(2);
}

static struct options read_options(int count, char **arguments)
{
    struct options options = {.program = arguments[1], .runner = "", .seed = 3001};

    if (count < 2 || count % 2 != 0)
        explain_and_exit(arguments[0]);
    for (int i = 2; i < count; i += 2) {
        const char *value = arguments[i + 1];
        bool is_right = true;

        if (strcmp(arguments[i], "--runner") == 0)
            options.runner = value;
        else if (strcmp(arguments[i], "--seed") == 0)
            is_right = read_number(value, &options.seed);
        else
            is_right = strcmp(arguments[i], "--script") == 0 && read_number(value, &options.script);
        if (!is_right || options.script > SCRIPTS)
            explain_and_exit(arguments[0]);
    }
    return options;
}

static void say(void)
{
    static struct model model;
    static struct buffer calls;
    struct bytes left;

    buffer_read(&calls, "/dev/stdin");
    model_start(&model);
    for (left = bytes_of(&calls); left.length > 0;) {
        model_answer(&model, next_line(&left));
        fwrite(model.reply.at, 1, model.reply.length, stdout);
        putchar('\n');
    }
}

/* The calls that the program is checked on wherever it is built, and what it then has to write. */
static bool hold_data(void)
{
    static struct buffer calls, written;
    struct tally tally = {0};

    buffer_read(&calls, DATA_CALLS);
    buffer_read(&written, DATA_WRITTEN);
    if (!hold_lines(DATA_WRITTEN, bytes_of(&calls), bytes_of(&written), &tally))
        return false;
    printf("%s: %" PRIu64 " calls\n", DATA_WRITTEN, tally.calls);
    return true;
}

static bool hold_script(const struct options *options, uint64_t number, struct tally *tally)
{
    static struct buffer calls, written;
    char name[64], command[4096];
    int status;

    snprintf(name, sizeof name, "script %" PRIu64, number);
    snprintf(command, sizeof command, "%s '%s' <" SCRIPT_CALLS " >" SCRIPT_WRITTEN, options->runner, options->program);
    make_script(&calls, options->seed, number);
    buffer_write(&calls, SCRIPT_CALLS);
    status = system(command);
    buffer_read(&written, SCRIPT_WRITTEN);
    if (hold_lines(name, bytes_of(&calls), bytes_of(&written), tally) && status == 0)
        return true;
    printf("  the program ended with status %d after the calls in " SCRIPT_CALLS "\n", WEXITSTATUS(status));
    printf("  run them alone: tests/sessions.sh --seed %" PRIu64 " --script %" PRIu64 "\n", options->seed, number);
    return false;
}

static bool hold_all(const struct options *options, struct tally *tally)
{
    if (!hold_data())
        return false;
    for (uint64_t number = 1; number <= SCRIPTS; number++) {
        if (!hold_script(options, number, tally))
            return false;
        printf("script %" PRIu64 " of %d: %" PRIu64 " calls so far\n", number, SCRIPTS, tally->calls);
    }
    return true;
}

/* Prints the closing line, and says whether every answer was given. */
static bool finish(const struct options *options, const struct tally *tally)
{
    bool all_given = tally->bad > 0;

    printf("seed %" PRIu64 ": %" PRIu64 " calls are as the model says; answers", options->seed, tally->calls);
    for (int i = 0; i < ANSWERS; i++) {
        printf("%s %d: %" PRIu64, i > 0 ? "," : "", i, tally->answers[i]);
        all_given = all_given && tally->answers[i] > 0;
    }
    printf(", bad: %" PRIu64 "\n", tally->bad);
    return all_given;
}

int main(int count, char **arguments)
{
    struct options options;
    struct tally tally = {0};

    if (count == 2 && strcmp(arguments[1], "--say") == 0) {
        say();
        return 0;
    }
    options = read_options(count, arguments);
    setvbuf(stdout, NULL, _IOLBF, BUFSIZ);
    if (options.script != 0)
        return hold_script(&options, options.script, &tally) ? finish(&options, &tally), 0 : 1;
    return hold_all(&options, &tally) && finish(&options, &tally) ? 0 : 1;
}
