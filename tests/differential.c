/* Compares the library with the reference, byte for byte, and stops by itself. */

#include <stdio.h>
#include <stdlib.h>
#include <string.h>

#include "differential/cases.h"
#include "differential/families.h"
#include "differential/number.h"

static void explain_and_exit(const char *program)
{
    fprintf(stderr,
            "usage: %s VECTORS [--only NAME | --case NUMBER] [--seed NUMBER] [--runner COMMAND]\n"
            "  --only, --case  run one case, by its name or its number\n"
            "  --seed          another start of the random bytes\n"
            "  --runner        what stands before the program when it is run\n",
            program);
    exit(2);
}

static struct options read_options(int count, char **arguments)
{
    struct options options = {.program = arguments[0], .runner = "", .seed = 3001};

    if (count < 2 || count % 2 != 0 || arguments[1][0] == '-')
        explain_and_exit(options.program);
    options.vectors = arguments[1];
    for (int i = 2; i < count; i += 2) {
        const char *value = arguments[i + 1];
        bool is_right = true;

        if (strcmp(arguments[i], "--only") == 0)
            options.only = value;
        else if (strcmp(arguments[i], "--case") == 0)
            is_right = read_number(value, &options.only_number);
        else if (strcmp(arguments[i], "--seed") == 0)
            is_right = read_number(value, &options.seed);
        else if (strcmp(arguments[i], "--runner") == 0)
            options.runner = value;
        else
            is_right = false;
        if (!is_right)
            explain_and_exit(options.program);
    }
    return options;
}

static void whole_messages(struct message *message, const char *vectors)
{
    published_vectors(message, vectors);
    lengths_around_the_rate(message);
    single_refusals(message);
    refusals_at_once(message);
    null_pointers(message);
    random_messages(message);
    damaged_messages(message);
    large_bodies(message);
    parts_at_their_limits(message);
}

static void segments(struct message *message)
{
    segments_by_hand(message);
    segment_lengths(message);
    segment_notes(message);
    segment_flags(message);
    single_refusals_of_segments(message);
    segment_refusals_at_once(message);
    damaged_segments(message);
    segment_null_pointers(message);
    segmented_jobs(message);
}

static void lists(void)
{
    lists_by_hand();
    list_lengths();
    listed_jobs();
    list_outputs();
    list_numbers();
    list_rules();
    damaged_lists();
    list_prefixes();
    list_null_pointers();
    largest_lists();
}

int main(int count, char **arguments)
{
    struct options options = read_options(count, arguments);
    struct message message;

    cases_start(&options);
    message_allocate(&message);
    whole_messages(&message, options.vectors);
    segments(&message);
    lists();
    runs_by_hand(&message);
    message_free(&message);
    return cases_finish();
}
