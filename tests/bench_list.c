/* Lists of segments, written and read by the library and by the reference, by turns in one run. */

#define _POSIX_C_SOURCE 200809L

#include <inttypes.h>
#include <stdio.h>
#include <stdlib.h>
#include <string.h>

#include "bench.h"
#include "jeczmilot.h"
#include "lists.h"

enum { SIDES = 2, SIZES = 3, LARGEST = SIZES - 1, TURNS = 4, LEAST_TURNS = 2 };

static const uint64_t lines_of_size[SIZES] = {1024, 32768, JECZMILOT_SEGMENTS_LIMIT};

static const uint64_t job = 7310025, revision = 12;

static const double batch_seconds = 0.002, run_seconds = 18;

/* Cost per byte may differ by so much between the sizes and still be called linear: the largest list fits in few
   caches, and a quadratic cost would differ by a thousand. */
static const double linear_within = 2;

/* The goal of reading: no more time than the reference's reader, 1.00 in the table, where two digits are shown. */
static const double goal_of_reading = 1.005;

enum work { READ, WRITE, LENGTH, WORKS };

static const char *const work_names[WORKS] = {"read", "write", "length"};

/* The best seconds that one call took, of the library and of the reference. */
struct line {
    enum work work;
    uint64_t length;
    size_t list_len;
    long calls_per_batch;
    double seconds[SIDES];
};

static struct line lines[WORKS][SIZES];

static uint8_t *text, *out;

static uint64_t segments_read(int side, const struct line *line)
{
    return side == 0 ? norx_list_read(text, line->list_len).segments
                     : reference_list_read(text, line->list_len).segments;
}

static uint32_t written(int side, const struct line *line)
{
    return side == 0 ? norx_list_write(job, revision, line->length, out, line->list_len)
                     : reference_list_write(job, revision, line->length, out, line->list_len);
}

static size_t length_of_list(int side, const struct line *line)
{
    return side == 0 ? norx_list_length(job, revision, line->length)
                     : reference_list_length(job, revision, line->length);
}

static void go(int side, const struct line *line)
{
    switch (line->work) {
    case READ:
        demand(segments_read(side, line) == line->length / JECZMILOT_SEGMENT_BYTES, "a list was not read");
        break;
    case WRITE:
        demand(written(side, line) == JECZMILOT_DONE, "a list was not written");
        break;
    default:
        demand(length_of_list(side, line) == line->list_len, "the two sides give different lengths");
    }
}

/* In processor time: a call on the largest list is long enough for the machine to do something else meanwhile. */
static double seconds_per_call(int side, const struct line *line)
{
    double begin = now_by(CLOCK_PROCESS_CPUTIME_ID);

    for (long i = 0; i < line->calls_per_batch; i++)
        go(side, line);
    return (now_by(CLOCK_PROCESS_CPUTIME_ID) - begin) / (double)line->calls_per_batch;
}

/* Has the library's list in the text, and sees to it that both sides write the same. */
static void prepare(const struct line *line)
{
    demand(written(0, line) == JECZMILOT_DONE, "a list was not written");
    memcpy(text, out, line->list_len);
    memset(out, 0, line->list_len);
    demand(written(1, line) == JECZMILOT_DONE, "a list was not written by the reference");
    demand(memcmp(text, out, line->list_len) == 0, "the two sides write different lists");
}

/* The two sides take turns, and also take turns at being first. */
static void measure(struct line *line)
{
    for (int turn = 0; turn < SIDES * TURNS; turn++) {
        int side = (turn + turn / 2) % SIDES;
        double seconds = seconds_per_call(side, line);

        if (seconds < line->seconds[side])
            line->seconds[side] = seconds;
    }
}

static double seconds_per_batch(int side, const struct line *line)
{
    return seconds_per_call(side, line) * (double)line->calls_per_batch;
}

/* Doubles the number of calls until the slower side takes the time of a batch. */
static void find_calls_per_batch(struct line *line)
{
    line->calls_per_batch = 1;
    while (seconds_per_batch(0, line) < batch_seconds && seconds_per_batch(1, line) < batch_seconds)
        line->calls_per_batch *= 2;
}

static void lay_out_size(int size)
{
    uint64_t length = lines_of_size[size] * JECZMILOT_SEGMENT_BYTES;

    for (int work = 0; work < WORKS; work++)
        lines[work][size] = (struct line){.work = (enum work)work,
                                          .length = length,
                                          .list_len = norx_list_length(job, revision, length),
                                          .seconds = {1e9, 1e9}};
    prepare(&lines[READ][size]);
    for (int work = 0; work < WORKS; work++)
        find_calls_per_batch(&lines[work][size]);
}

static uint8_t *allocate(size_t length)
{
    uint8_t *bytes = malloc(length);

    demand(bytes != NULL, "no memory");
    memset(bytes, 1, length);
    return bytes;
}

/* Goes over all lines again and again, so that a busy moment of the machine spoils none of them. */
static void measure_all(void)
{
    double begin = now();

    for (int turn = 0; turn < LEAST_TURNS || now() - begin < run_seconds; turn++)
        for (int size = 0; size < SIZES; size++) {
            prepare(&lines[READ][size]);
            for (int work = 0; work < WORKS; work++)
                measure(&lines[work][size]);
        }
}

static double ratio_of(const struct line *line)
{
    return line->seconds[0] / line->seconds[1];
}

/* A length is worked out for the whole list, so its time is that of a call. */
static void print_line(const struct line *line)
{
    uint64_t segments = line->length / JECZMILOT_SEGMENT_BYTES;
    double shown = 1e9 / (line->work == LENGTH ? 1 : (double)segments);

    printf("%-6s %7" PRIu64 " %12.2f %13.2f %6.2f  ns for each %s\n", work_names[line->work], segments,
           shown * line->seconds[0], shown * line->seconds[1], ratio_of(line), line->work == LENGTH ? "call" : "line");
}

/* The lines of a longer list have more digits, so it is the cost per byte that must stay. */
static void print_linearity(const struct line sizes[SIZES])
{
    double least = 1e9, most = 0;

    for (int size = 0; size < SIZES; size++) {
        double cost = 1e9 * sizes[size].seconds[0] / (double)sizes[size].list_len;

        least = cost < least ? cost : least;
        most = cost > most ? cost : most;
    }
    printf("      library: %.3f to %.3f ns per byte of the list: %s\n", least, most,
           most < linear_within * least ? "linear" : "NOT linear");
}

/* Whether reading keeps its bound; the other ratios are not judged. */
static void print_lines(void)
{
    const double reading = ratio_of(&lines[READ][LARGEST]);

    printf("lists of job %" PRIu64 ", revision %" PRIu64 ": the ratio of the times, library to reference\n", job,
           revision);
    printf("work     lines   library ns  reference ns  ratio\n");
    for (int work = 0; work < WORKS; work++) {
        for (int size = 0; size < SIZES; size++)
            print_line(&lines[work][size]);
        if (work != LENGTH)
            print_linearity(lines[work]);
    }
    printf("reading %d lines takes %.2f of the reference's time; the goal, at most 1.00, is %s\n",
           JECZMILOT_SEGMENTS_LIMIT, reading, reading < goal_of_reading ? "reached" : "NOT reached");
}

int main(void)
{
    size_t longest = norx_list_length(job, revision, JECZMILOT_LIST_BODY_LIMIT);

    text = allocate(longest);
    out = allocate(longest);
    printf("measuring lists for about %.0f s\n", run_seconds);
    fflush(stdout);
    for (int size = 0; size < SIZES; size++)
        lay_out_size(size);
    measure_all();
    print_lines();
    return 0;
}
