/* Speed of the library beside the reference by several compilers, by turns in one run. */

#define _POSIX_C_SOURCE 200809L

#include <inttypes.h>
#include <stdio.h>
#include <string.h>

#include "bench.h"
#include "bench_compilations.h"
#include "jeczmilot.h"

/* Side 0 is the library, and behind it come the compilations in their order. */
enum { LIBRARY, FIRST_C, SIDES = FIRST_C + COMPILATIONS };

enum { KINDS = 8, SIZES = 4, KIB_64 = 2, MIB_1 = 3, LARGEST = 1 << 20, HEADER_BYTES = 16, LONGEST_TAG = 32, TURNS = 6 };

static const size_t sizes[SIZES] = {64, 1 << 10, 64 << 10, LARGEST};

static const double batch_seconds = 0.0005;

static const double run_seconds = 60;

/* Cost per byte may differ by so much between 64 KiB and 1 MiB and still be called linear. */
static const double linear_within = 1.25;

/* What the ratio library / C should be in every cell. */
static const double least_ratio = 1.00;

/* One line of the table; the seconds are the best that one call took. */
struct line {
    uint32_t width, rounds;
    int opening;
    size_t size;
    long calls_per_batch;
    double seconds[SIDES];
};

static struct line lines[KINDS][SIZES];

static uint8_t key[LONGEST_TAG], nonce[LONGEST_TAG], header[HEADER_BYTES];
static uint8_t body[LARGEST], sealed[LARGEST + LONGEST_TAG], out[LARGEST + LONGEST_TAG];

static const struct compilation *compilation_of(int side)
{
    return &compilations[side - FIRST_C];
}

static uint32_t answer_of_seal(int side, const struct line *line)
{
    size_t tag = line->width / 2;

    if (side == LIBRARY)
        return norx_seal(line->width, line->rounds, key, tag, nonce, tag, header, HEADER_BYTES, body, line->size, NULL,
                         0, out, line->size + tag).answer;
    return compilation_of(side)->seal(line->width, line->rounds, key, tag, nonce, tag, header, HEADER_BYTES, body,
                                      line->size, NULL, 0, out, line->size + tag);
}

static uint32_t answer_of_open(int side, const struct line *line)
{
    size_t tag = line->width / 2;

    if (side == LIBRARY)
        return norx_open(line->width, line->rounds, key, tag, nonce, tag, header, HEADER_BYTES, sealed,
                         line->size + tag, NULL, 0, out, line->size).answer;
    return compilation_of(side)->open(line->width, line->rounds, key, tag, nonce, tag, header, HEADER_BYTES, sealed,
                                      line->size + tag, NULL, 0, out, line->size);
}

static void seal_by(int side, const struct line *line)
{
    demand(answer_of_seal(side, line) == 0, "sealing was refused");
}

static void open_by(int side, const struct line *line)
{
    demand(answer_of_open(side, line) == 0, "opening was refused");
}

static double seconds_per_call(int side, const struct line *line)
{
    double begin = now();

    for (long i = 0; i < line->calls_per_batch; i++) {
        if (line->opening)
            open_by(side, line);
        else
            seal_by(side, line);
    }
    return (now() - begin) / (double)line->calls_per_batch;
}

/* Has the library's sealed text where all sides open it. */
static void prepare(const struct line *line)
{
    seal_by(LIBRARY, line);
    memcpy(sealed, out, line->size + line->width / 2);
}

/* Every side does the same work. */
static void check_sides(const struct line *line)
{
    size_t sealed_len = line->size + line->width / 2;

    for (int side = 0; side < SIDES; side++) {
        memset(out, 0, sealed_len);
        seal_by(side, line);
        demand(memcmp(sealed, out, sealed_len) == 0, "the sides seal differently");
        memset(out, 0, sealed_len);
        open_by(side, line);
        demand(memcmp(body, out, line->size) == 0, "the sides open differently");
    }
}

/* Each time another side is first, and every second time they go the other way round, so that none is always behind
   the same one. */
static int side_at(int turn)
{
    int first = turn / SIDES, step = turn % SIDES;

    return (first + (first % 2 == 0 ? step : SIDES - step)) % SIDES;
}

static void measure(struct line *line)
{
    prepare(line);
    for (int turn = 0; turn < SIDES * TURNS; turn++) {
        int side = side_at(turn);
        double seconds = seconds_per_call(side, line);

        if (seconds < line->seconds[side])
            line->seconds[side] = seconds;
    }
}

/* Doubles the number of calls until they take the time of a batch. */
static void find_calls_per_batch(struct line *line)
{
    line->calls_per_batch = 1;
    while (seconds_per_call(FIRST_C, line) * (double)line->calls_per_batch < batch_seconds)
        line->calls_per_batch *= 2;
}

static void lay_out(struct line *line, int kind, size_t size)
{
    *line = (struct line){.width = kind < KINDS / 2 ? 32 : 64,
                          .rounds = kind / 2 % 2 == 0 ? 4 : 6,
                          .opening = kind % 2,
                          .size = size};
    for (int side = 0; side < SIDES; side++)
        line->seconds[side] = 1e9;
    prepare(line);
    check_sides(line);
    find_calls_per_batch(line);
}

static void lay_out_lines(void)
{
    for (int kind = 0; kind < KINDS; kind++)
        for (int size = 0; size < SIZES; size++)
            lay_out(&lines[kind][size], kind, sizes[size]);
}

/* Goes over all lines again and again, so that a busy moment of the machine spoils none of them. */
static void measure_all(void)
{
    double begin = now();

    do {
        for (int kind = 0; kind < KINDS; kind++)
            for (int size = 0; size < SIZES; size++)
                measure(&lines[kind][size]);
    } while (now() - begin < run_seconds);
}

static void print_heading(void)
{
    printf("library / C, how many times as fast the library is as the reference: a header of %d bytes, no trailer\n",
           HEADER_BYTES);
    printf("gcc, clang: the reference by that compiler, -O3 for plain x86-64; the goal is %.2f in every cell\n",
           least_ratio);
#ifdef NATIVE
    printf("native: with -march=native too, for this machine alone; it has no goal\n");
#endif
    printf("width rounds  work    bytes  library MB/s");
    for (int side = FIRST_C; side < SIDES; side++)
        printf("%14s", compilation_of(side)->name);
    printf("\n");
}

static double ratio_of(const struct line *line, int side)
{
    return line->seconds[side] / line->seconds[LIBRARY];
}

static const char *work_of(const struct line *line)
{
    return line->opening ? "open" : "seal";
}

static void print_line(const struct line *line)
{
    printf("%5" PRIu32 " %6" PRIu32 "  %s %8zu %13.1f", line->width, line->rounds, work_of(line), line->size,
           (double)line->size / 1e6 / line->seconds[LIBRARY]);
    for (int side = FIRST_C; side < SIDES; side++)
        printf("%14.2f", ratio_of(line, side));
    printf("\n");
}

static void print_linearity(const struct line *shorter, const struct line *longer)
{
    double shorter_cost = 1e9 * shorter->seconds[LIBRARY] / (double)shorter->size;
    double longer_cost = 1e9 * longer->seconds[LIBRARY] / (double)longer->size;
    int linear = longer_cost < linear_within * shorter_cost && shorter_cost < linear_within * longer_cost;

    printf("      library: %.3f ns per byte at 64 KiB, %.3f at 1 MiB: %s\n", shorter_cost, longer_cost,
           linear ? "linear" : "NOT linear");
}

static void print_lowest(int side)
{
    const struct line *lowest = &lines[0][0];

    for (int kind = 0; kind < KINDS; kind++)
        for (int size = 0; size < SIZES; size++)
            if (ratio_of(&lines[kind][size], side) < ratio_of(lowest, side))
                lowest = &lines[kind][size];
    printf("lowest beside %s: %.3f (%" PRIu32 " bits, %" PRIu32 " rounds, %s, %zu bytes), goal %.2f: %s\n",
           compilation_of(side)->name, ratio_of(lowest, side), lowest->width, lowest->rounds, work_of(lowest),
           lowest->size, least_ratio, ratio_of(lowest, side) >= least_ratio ? "reached" : "not reached");
}

/* The ratio depends on the processor, so the goal is shown and not judged. */
static void print_table(void)
{
    print_heading();
    for (int kind = 0; kind < KINDS; kind++) {
        for (int size = 0; size < SIZES; size++)
            print_line(&lines[kind][size]);
        print_linearity(&lines[kind][KIB_64], &lines[kind][MIB_1]);
    }
    for (int side = FIRST_C; side < SIDES; side++)
        if (compilation_of(side)->has_goal)
            print_lowest(side);
}

/* Touches every page, so that no timed call is the first to use one. */
static void touch_buffers(void)
{
    for (size_t i = 0; i < sizeof body; i++)
        body[i] = (uint8_t)(i * 151 >> 3);
    memset(sealed, 1, sizeof sealed);
    memset(out, 1, sizeof out);
    memset(key, 2, sizeof key);
    memset(nonce, 3, sizeof nonce);
    memset(header, 4, sizeof header);
}

int main(void)
{
    touch_buffers();
    printf("measuring for about %.0f s\n", run_seconds);
    fflush(stdout);
    lay_out_lines();
    measure_all();
    print_table();
    return 0;
}
