/* What a job costs, whole and in segments, in runs of P as the library reports them and in time; docs/PLANNING.md. */

#define _POSIX_C_SOURCE 200809L

#include <inttypes.h>
#include <stdio.h>
#include <string.h>

#include "bench.h"
#include "jeczmilot.h"

enum { LARGEST = JECZMILOT_BODY_LIMIT, SEGMENT = JECZMILOT_SEGMENT_BYTES, LONGEST_TAG = 32 };

static const size_t sizes[] = {0, 64, 256, 1 << 10, 4 << 10, 16 << 10, 64 << 10, 256 << 10, 1 << 20, 4 << 20, LARGEST};

static const double batch_seconds = 0.0005, run_seconds = 25;

enum { SIZES = sizeof sizes / sizeof *sizes, KINDS = 4, NOTE_BYTES = 14 };

enum { HEADER_BYTES = JECZMILOT_FRONT_BYTES + NOTE_BYTES };

static const uint64_t number = 7, revision = 12;

/* The header of a whole job: its number and revision, and the note that the segments have too. */
static const uint8_t header[HEADER_BYTES + 1] = "\7\0\0\0\0\0\0\0\14\0\0\0\0\0\0\0tool 4, mill B";

static const uint8_t *const note = header + JECZMILOT_FRONT_BYTES;

static uint8_t key[LONGEST_TAG], nonce[LONGEST_TAG];

static uint8_t body[LARGEST], out[LARGEST], whole[LARGEST + LONGEST_TAG];

static uint8_t segments[LARGEST / SEGMENT][SEGMENT + LONGEST_TAG];

struct job {
    uint32_t width, rounds;
    size_t bytes;
};

static size_t tag_of(const struct job *job)
{
    return job->width / 2;
}

static size_t segments_of(const struct job *job)
{
    return job->bytes == 0 ? 1 : (job->bytes + SEGMENT - 1) / SEGMENT;
}

static uint32_t is_last(const struct job *job, size_t index)
{
    return index + 1 == segments_of(job);
}

static size_t length_of(const struct job *job, size_t index)
{
    return is_last(job, index) ? job->bytes - index * SEGMENT : SEGMENT;
}

/* The runs of P that a call reports. */
static uint64_t reported(struct norx_outcome outcome, uint32_t answer)
{
    demand(outcome.answer == answer, "a call has another answer than it should");
    return outcome.runs;
}

static uint64_t seal_whole(const struct job *job)
{
    size_t tag = tag_of(job);

    return reported(norx_seal(job->width, job->rounds, key, tag, nonce, tag, header, HEADER_BYTES, body, job->bytes,
                              NULL, 0, whole, job->bytes + tag),
                    JECZMILOT_DONE);
}

static struct norx_outcome opened_whole(const struct job *job)
{
    size_t tag = tag_of(job);

    return norx_open(job->width, job->rounds, key, tag, nonce, tag, header, HEADER_BYTES, whole, job->bytes + tag,
                     NULL, 0, out, job->bytes);
}

static uint64_t open_whole(const struct job *job)
{
    return reported(opened_whole(job), JECZMILOT_DONE);
}

static uint64_t open_whole_with_wrong_tag(const struct job *job)
{
    uint8_t *last = whole + job->bytes + tag_of(job) - 1;
    struct norx_outcome outcome;

    *last ^= 1;
    outcome = opened_whole(job);
    *last ^= 1;
    return reported(outcome, JECZMILOT_TAG_DIFFERS);
}

static struct norx_outcome sealed_segment(const struct job *job, size_t index)
{
    size_t tag = tag_of(job), length = length_of(job, index);

    return norx_segment_seal(job->width, job->rounds, key, tag, nonce, tag - 8, number, revision, note, NOTE_BYTES,
                             index, is_last(job, index), body + index * SEGMENT, length, segments[index], length + tag);
}

static struct norx_outcome opened_segment(const struct job *job, size_t index)
{
    size_t tag = tag_of(job), length = length_of(job, index);

    return norx_segment_open(job->width, job->rounds, key, tag, nonce, tag - 8, number, revision, note, NOTE_BYTES,
                             index, 0, is_last(job, index), segments[index], length + tag, out + index * SEGMENT,
                             length);
}

static uint64_t seal_segments(const struct job *job)
{
    uint64_t runs = 0;

    for (size_t i = 0; i < segments_of(job); i++)
        runs += reported(sealed_segment(job, i), JECZMILOT_DONE);
    return runs;
}

static uint64_t open_segments(const struct job *job)
{
    uint64_t runs = 0;

    for (size_t i = 0; i < segments_of(job); i++)
        runs += reported(opened_segment(job, i), JECZMILOT_DONE);
    return runs;
}

static uint64_t runs_of_part(uint32_t width, size_t bytes)
{
    size_t block = 12 * width / 8;

    return bytes == 0 ? 0 : bytes / block + 1;
}

static uint64_t runs_of_call(uint32_t width, size_t body_bytes)
{
    return 3 + runs_of_part(width, HEADER_BYTES) + runs_of_part(width, body_bytes);
}

static uint64_t runs_of_whole(const struct job *job)
{
    return runs_of_call(job->width, job->bytes);
}

static uint64_t runs_of_segments(const struct job *job)
{
    uint64_t runs = 0;

    for (size_t i = 0; i < segments_of(job); i++)
        runs += runs_of_call(job->width, length_of(job, i));
    return runs;
}

/* A way to work on a job, which gives the runs that all its calls report together, and what they are by the formula. */
struct way {
    const char *work, *cut;
    uint64_t (*go)(const struct job *job);
    uint64_t (*formula)(const struct job *job);
};

/* Sealing comes first, and leaves what is opened. */
static const struct way ways[] = {{"seal", "whole", seal_whole, runs_of_whole},
                                  {"seal", "segments", seal_segments, runs_of_segments},
                                  {"open", "whole", open_whole, runs_of_whole},
                                  {"open", "segments", open_segments, runs_of_segments},
                                  {"wrong", "whole", open_whole_with_wrong_tag, runs_of_whole}};

enum { WAYS = sizeof ways / sizeof *ways };

static void go(const struct way *way, const struct job *job, uint64_t runs)
{
    demand(way->go(job) == runs, "the runs reported are not those of the formula");
}

/* None of the lengths that are measured is a whole number of blocks, so short ones are tried one after the other. */
static void try_short_jobs(uint32_t width)
{
    for (size_t bytes = 0; bytes <= 200; bytes++) {
        struct job job = {.width = width, .rounds = 4, .bytes = bytes};

        for (int way = 0; way < WAYS; way++)
            go(&ways[way], &job, ways[way].formula(&job));
    }
}

/* One line of the figures; the seconds are the best that the job took. */
struct line {
    const struct way *way;
    struct job job;
    uint64_t runs;
    long jobs_per_batch;
    double seconds;
};

static struct line lines[KINDS][SIZES][WAYS];

/* In processor time: a long job is long enough for the machine to do something else meanwhile. */
static double seconds_per_job(const struct line *line)
{
    double begin = now_by(CLOCK_PROCESS_CPUTIME_ID);

    for (long i = 0; i < line->jobs_per_batch; i++)
        go(line->way, &line->job, line->runs);
    return (now_by(CLOCK_PROCESS_CPUTIME_ID) - begin) / (double)line->jobs_per_batch;
}

static void measure(struct line *line)
{
    double seconds = seconds_per_job(line);

    if (seconds < line->seconds)
        line->seconds = seconds;
}

/* Doubles the number of jobs until they take the time of a batch. */
static void find_jobs_per_batch(struct line *line)
{
    line->jobs_per_batch = 1;
    while (seconds_per_job(line) * (double)line->jobs_per_batch < batch_seconds)
        line->jobs_per_batch *= 2;
}

/* Sees to it that what was sealed is opened to the same job again. */
static void check_opening(const struct job *job, uint64_t (*open)(const struct job *job))
{
    memset(out, 1, job->bytes);
    open(job);
    demand(memcmp(out, body, job->bytes) == 0, "the opened job is another");
}

static void lay_out(struct line job_lines[WAYS], struct job job)
{
    seal_whole(&job);
    check_opening(&job, open_whole);
    seal_segments(&job);
    check_opening(&job, open_segments);
    for (int way = 0; way < WAYS; way++) {
        job_lines[way] = (struct line){.way = &ways[way], .job = job, .runs = ways[way].formula(&job), .seconds = 1e9};
        find_jobs_per_batch(&job_lines[way]);
    }
}

static void lay_out_lines(void)
{
    for (int kind = 0; kind < KINDS; kind++)
        for (int size = 0; size < SIZES; size++)
            lay_out(lines[kind][size], (struct job){.width = kind < KINDS / 2 ? 32 : 64,
                                                    .rounds = kind % 2 == 0 ? 4 : 6,
                                                    .bytes = sizes[size]});
}

/* Goes over all lines again and again, so that a busy moment of the machine spoils none of them. */
static void measure_all(void)
{
    double begin = now();

    do {
        for (int kind = 0; kind < KINDS; kind++)
            for (int size = 0; size < SIZES; size++)
                for (int way = 0; way < WAYS; way++)
                    measure(&lines[kind][size][way]);
    } while (now() - begin < run_seconds);
}

static void print_line(const struct line *line)
{
    printf("%" PRIu32 " %" PRIu32 " %-5s %-8s %8zu %6" PRIu64 " %10.1f\n", line->job.width, line->job.rounds,
           line->way->work, line->way->cut, line->job.bytes, line->runs, 1e9 * line->seconds);
}

static void print_lines(void)
{
    printf("# width rounds work cut bytes runs nanoseconds\n");
    for (int kind = 0; kind < KINDS; kind++)
        for (int way = 0; way < WAYS; way++)
            for (int size = 0; size < SIZES; size++)
                print_line(&lines[kind][size][way]);
}

int main(void)
{
    for (size_t i = 0; i < sizeof body; i++)
        body[i] = (uint8_t)(i * 151 >> 3);
    memset(key, 2, sizeof key);
    memset(nonce, 3, sizeof nonce);
    fprintf(stderr, "measuring runs of P for about %.0f s\n", run_seconds);
    try_short_jobs(32);
    try_short_jobs(64);
    lay_out_lines();
    measure_all();
    print_lines();
    return 0;
}
