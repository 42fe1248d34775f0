/* The list of the most lines, and what is one step away from it. */

#include <stdio.h>
#include <stdlib.h>
#include <string.h>

#include "cases.h"
#include "families.h"
#include "jeczmilot.h"
#include "list.h"

enum { ROOM_BEHIND = 100 };

static const uint64_t job = 7310025, revision = 12;

/* The list, with room behind it for one line more. */
struct largest {
    uint8_t *bytes;
    size_t length;
};

static void make_largest(struct largest *largest)
{
    largest->length = reference_list_length(job, revision, list_body_limit);
    largest->bytes = malloc(largest->length + ROOM_BEHIND);
    if (largest->bytes == NULL) {
        fprintf(stderr, "no memory for the largest list\n");
        exit(2);
    }
    reference_list_write(job, revision, list_body_limit, largest->bytes, largest->length);
}

static void written_and_read(void)
{
    struct listed listed = {job, revision, list_body_limit};

    if (!case_begins("list largest, written and read"))
        return;
    compare_list_length(&listed, 25103290);
    compare_list_write(&listed, 25103290, DONE);
    compare_long_list_read(written_list(), numbers_of(&listed));
}

/* The largest numbers make the longest list of all. */
static void longest(void)
{
    struct listed listed = {UINT64_MAX, UINT64_MAX, list_body_limit};

    if (case_begins("list largest, the longest"))
        compare_list_length(&listed, JECZMILOT_LIST_LIMIT);
}

static void one_over(const struct largest *largest)
{
    struct listed listed = {job, revision, list_body_limit + 1};

    if (!case_begins("list largest, of a body one byte longer"))
        return;
    compare_list_length(&listed, 0);
    compare_list_write(&listed, largest->length, OVER_LIMIT);
}

struct ending {
    const char *name;
    size_t dropped;
    const char *added;
    struct reference_list expected;
};

/* The last line is "7310025\t12\t1048575\t65536\n"; what is dropped of its end and put there. */
static const struct ending endings[] = {
    {"a line more", 0, "7310025\t12\t1048576\t65536\n", {.bad = 1048577}},
    {"a digit more", 0, "7", {.bad = 1048577}},
    {"no last newline", 1, "", {.bad = 1048576}},
    {"a last segment of 65537", 6, "65537\n", {.bad = 1048576}},
    {"a last segment of one byte", 6, "1\n", {0, 7310025, 12, 1048576, 68719411201}},
};

static void one_ending(const struct largest *largest, const struct ending *ending)
{
    const size_t added = strlen(ending->added), kept = largest->length - ending->dropped;
    uint8_t saved[ROOM_BEHIND];

    if (!case_begins("list largest, %s", ending->name))
        return;
    memcpy(saved, largest->bytes + kept, ending->dropped);
    memcpy(largest->bytes + kept, ending->added, added);
    compare_long_list_read((struct bytes){largest->bytes, kept + added}, ending->expected);
    memcpy(largest->bytes + kept, saved, ending->dropped);
}

/* Anywhere in the list: the bad line is the one that has the damaged byte. */
static void damaged_somewhere(const struct largest *largest)
{
    uint64_t line = 1;
    struct prng prng;
    size_t place;
    uint8_t right;

    if (!case_begins("list largest, damaged somewhere"))
        return;
    prng = case_prng();
    place = prng_below(&prng, largest->length);
    for (size_t i = 0; i < place; i++)
        line += largest->bytes[i] == '\n' ? 1 : 0;
    right = largest->bytes[place];
    largest->bytes[place] = ' ';
    compare_long_list_read((struct bytes){largest->bytes, largest->length}, (struct reference_list){.bad = line});
    largest->bytes[place] = right;
}

void largest_lists(void)
{
    struct largest largest;

    family_begins("largest lists");
    make_largest(&largest);
    written_and_read();
    longest();
    one_over(&largest);
    for (size_t i = 0; i < sizeof endings / sizeof *endings; i++)
        one_ending(&largest, &endings[i]);
    damaged_somewhere(&largest);
    free(largest.bytes);
}
