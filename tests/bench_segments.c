/* A job in segments beside one call on the same bytes, by turns in one run; and its segments opened on two threads. */

#define _POSIX_C_SOURCE 200809L

#include <inttypes.h>
#include <pthread.h>
#include <stdio.h>
#include <string.h>

#include "bench.h"
#include "jeczmilot.h"
#include "segments.h"

enum { JOB_BYTES = JECZMILOT_BODY_LIMIT, SEGMENTS = JOB_BYTES / JECZMILOT_SEGMENT_BYTES, LONGEST_TAG = 32 };

enum { THREADS = 2, LEAST_TURNS = 5 };

/* For the ways without threads, and then for those beside them. */
static const double run_seconds = 20, threads_seconds = 15;

/* What segments may cost of one call, and what two threads should gain. */
static const double most_of_one_call = 1.05, least_gain = 1.9;

/* Those beside threads come last: an emulator works otherwise once there was a second thread. */
enum way { WHOLE_SEAL, SEGMENTS_SEAL, WHOLE_OPEN, SEGMENTS_OPEN, ONE_THREAD_OPEN, THREADS_OPEN, WAYS };

/* The best seconds that each way took. */
struct line {
    uint32_t width;
    double seconds[WAYS];
};

static struct line lines[] = {{.width = 32}, {.width = 64}};

enum { LINES = sizeof lines / sizeof *lines, ROUNDS = 4, NOTE_BYTES = 14 };

enum { HEADER_BYTES = JECZMILOT_FRONT_BYTES + NOTE_BYTES };

static const uint64_t job = 7, revision = 12;

/* The header of the one call: job and revision, and the note that the segments have too. */
static const uint8_t header[HEADER_BYTES + 1] = "\7\0\0\0\0\0\0\0\14\0\0\0\0\0\0\0tool 4, mill B";

static const uint8_t *const note = header + JECZMILOT_FRONT_BYTES;

static uint8_t key[LONGEST_TAG], nonce[LONGEST_TAG];

static uint8_t body[JOB_BYTES], out[JOB_BYTES], whole[JOB_BYTES + LONGEST_TAG];

static uint8_t segments[SEGMENTS][JECZMILOT_SEGMENT_BYTES + LONGEST_TAG];

static void seal_whole(uint32_t width)
{
    size_t tag = width / 2;
    struct norx_outcome outcome = norx_seal(width, ROUNDS, key, tag, nonce, tag, header, HEADER_BYTES, body,
                                            sizeof body, NULL, 0, whole, sizeof body + tag);

    demand(outcome.answer == 0, "sealing in one call was refused");
}

static void open_whole(uint32_t width)
{
    size_t tag = width / 2;
    struct norx_outcome outcome = norx_open(width, ROUNDS, key, tag, nonce, tag, header, HEADER_BYTES, whole,
                                            sizeof body + tag, NULL, 0, out, sizeof out);

    demand(outcome.answer == 0, "opening in one call was refused");
}

static void seal_segments(uint32_t width)
{
    size_t tag = width / 2;

    for (size_t i = 0; i < SEGMENTS; i++) {
        struct norx_outcome outcome =
            norx_segment_seal(width, ROUNDS, key, tag, nonce, tag - 8, job, revision, note, NOTE_BYTES, i,
                              i == SEGMENTS - 1, body + i * JECZMILOT_SEGMENT_BYTES, JECZMILOT_SEGMENT_BYTES,
                              segments[i], JECZMILOT_SEGMENT_BYTES + tag);

        demand(outcome.answer == 0, "sealing of a segment was refused");
    }
}

/* Opens the segments first, first + step, and so on. */
static void open_some(uint32_t width, size_t first, size_t step)
{
    size_t tag = width / 2;

    for (size_t i = first; i < SEGMENTS; i += step) {
        struct norx_outcome outcome =
            norx_segment_open(width, ROUNDS, key, tag, nonce, tag - 8, job, revision, note, NOTE_BYTES, i, 0,
                              i == SEGMENTS - 1, segments[i], JECZMILOT_SEGMENT_BYTES + tag,
                              out + i * JECZMILOT_SEGMENT_BYTES, JECZMILOT_SEGMENT_BYTES);

        demand(outcome.answer == 0, "opening of a segment was refused");
    }
}

struct share {
    uint32_t width;
    size_t first;
};

static void *open_share(void *given)
{
    const struct share *share = given;

    open_some(share->width, share->first, THREADS);
    return NULL;
}

static void open_on_threads(uint32_t width)
{
    pthread_t threads[THREADS];
    struct share shares[THREADS];

    for (size_t i = 0; i < THREADS; i++) {
        shares[i] = (struct share){width, i};
        demand(pthread_create(&threads[i], NULL, open_share, &shares[i]) == 0, "no thread");
    }
    for (size_t i = 0; i < THREADS; i++)
        demand(pthread_join(threads[i], NULL) == 0, "a thread does not end");
}

static void go(enum way way, uint32_t width)
{
    switch (way) {
    case WHOLE_SEAL:
        seal_whole(width);
        break;
    case SEGMENTS_SEAL:
        seal_segments(width);
        break;
    case WHOLE_OPEN:
        open_whole(width);
        break;
    case SEGMENTS_OPEN:
    case ONE_THREAD_OPEN:
        open_some(width, 0, 1);
        break;
    default:
        open_on_threads(width);
    }
}

/* Every segment is what the reference seals. */
static void check_sealing(uint32_t width)
{
    static uint8_t expected[JECZMILOT_SEGMENT_BYTES + LONGEST_TAG];
    size_t tag = width / 2;

    seal_segments(width);
    for (size_t i = 0; i < SEGMENTS; i++) {
        reference_segment_seal(width, ROUNDS, key, tag, nonce, tag - 8, job, revision, note, NOTE_BYTES, i,
                               i == SEGMENTS - 1, body + i * JECZMILOT_SEGMENT_BYTES, JECZMILOT_SEGMENT_BYTES,
                               expected, JECZMILOT_SEGMENT_BYTES + tag);
        demand(memcmp(expected, segments[i], JECZMILOT_SEGMENT_BYTES + tag) == 0, "a segment is sealed differently");
    }
}

/* That way of opening gives the whole job. */
static void check_opening(uint32_t width, enum way way)
{
    seal_whole(width);
    seal_segments(width);
    memset(out, 1, sizeof out);
    go(way, width);
    demand(memcmp(out, body, sizeof body) == 0, "the opened job is another");
}

/* The ways from one up to another each take a turn; they begin with another one each time. */
static void measure(struct line *line, int turn, int from, int to)
{
    seal_whole(line->width);
    seal_segments(line->width);
    for (int i = 0; i < to - from; i++) {
        enum way way = (enum way)(from + (turn + i) % (to - from));
        double begin = now(), seconds;

        go(way, line->width);
        seconds = now() - begin;
        if (turn == 0 || seconds < line->seconds[way])
            line->seconds[way] = seconds;
    }
}

/* Whether the bound is kept. */
static int print_work(const struct line *line, const char *work, enum way one_call, enum way in_segments)
{
    double megabytes = (double)JOB_BYTES / 1e6, ratio = line->seconds[in_segments] / line->seconds[one_call];
    int kept = ratio <= most_of_one_call;

    printf("%5" PRIu32 "  %s %14.1f %14.1f %6.3f  %s\n", line->width, work, megabytes / line->seconds[one_call],
           megabytes / line->seconds[in_segments], ratio, kept ? "kept" : "NOT kept");
    return kept;
}

static void print_gain(const struct line *line)
{
    double megabytes = (double)JOB_BYTES / 1e6, gain = line->seconds[ONE_THREAD_OPEN] / line->seconds[THREADS_OPEN];

    printf("%5" PRIu32 "  open %14.1f %14.1f %6.3f  %s\n", line->width, megabytes / line->seconds[ONE_THREAD_OPEN],
           megabytes / line->seconds[THREADS_OPEN], gain, gain >= least_gain ? "reached" : "not reached");
}

/* Whether segments cost no more than they may; the gain of threads depends on what else the cores do, and is not judged. */
static int print_lines(void)
{
    int kept = 1;

    printf("a job of 16 MiB in %d segments beside one call, 4 rounds: the ratio of their times, at most %.2f\n",
           SEGMENTS, most_of_one_call);
    printf("width  work  one call MB/s  segments MB/s  ratio\n");
    for (int i = 0; i < LINES; i++) {
        kept &= print_work(&lines[i], "seal", WHOLE_SEAL, SEGMENTS_SEAL);
        kept &= print_work(&lines[i], "open", WHOLE_OPEN, SEGMENTS_OPEN);
    }
    printf("its segments on %d threads, each taking every second one: the gain on two cores, %.1f is the goal\n", THREADS,
           least_gain);
    printf("width  work   1 thread MB/s %d threads MB/s   gain\n", THREADS);
    for (int i = 0; i < LINES; i++)
        print_gain(&lines[i]);
    return kept;
}

static void measure_for(double seconds, int from, int to)
{
    double begin = now();

    for (int turn = 0; turn < LEAST_TURNS || now() - begin < seconds; turn++)
        for (int i = 0; i < LINES; i++)
            measure(&lines[i], turn, from, to);
}

int main(void)
{
    for (size_t i = 0; i < sizeof body; i++)
        body[i] = (uint8_t)(i * 151 >> 3);
    memset(key, 2, sizeof key);
    memset(nonce, 3, sizeof nonce);
    printf("measuring segments for about %.0f s\n", run_seconds + threads_seconds);
    fflush(stdout);
    for (int i = 0; i < LINES; i++) {
        check_sealing(lines[i].width);
        check_opening(lines[i].width, WHOLE_OPEN);
        check_opening(lines[i].width, SEGMENTS_OPEN);
    }
    measure_for(run_seconds, WHOLE_SEAL, ONE_THREAD_OPEN);
    for (int i = 0; i < LINES; i++)
        check_opening(lines[i].width, THREADS_OPEN);
    measure_for(threads_seconds, ONE_THREAD_OPEN, WAYS);
    return print_lines() ? 0 : 1;
}
