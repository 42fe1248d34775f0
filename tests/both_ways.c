/* One call and sessions, both ways: a session checks what one call sealed, and one call opens what a session sealed.
   The program vectors has the sessions, so this one runs twice, and makes the same jobs both times:
     both_ways ask      writes the calls of vectors
     both_ways judge    reads what vectors wrote */

#include <inttypes.h>
#include <stdbool.h>
#include <stdio.h>
#include <stdlib.h>
#include <string.h>

#include "jeczmilot.h"
#include "prng.h"
#include "session_header.h"

enum { SEED = 3002, WIDTHS = 2, ROUNDS = 2, NOTES = 7, BODIES = 6, TRAILERS = 2 };

enum { JOBS = WIDTHS * ROUNDS * NOTES * BODIES * TRAILERS, LONGEST = 2 * 96, LONGEST_TAG = 32 };

struct edition {
    uint64_t job, revision;
};

/* Small, equal, 0, near 2^64, and of sixteen different bytes. */
static const struct edition editions[] = {{7, 12},
                                          {12, 7},
                                          {3, 3},
                                          {0, 0},
                                          {0, 1},
                                          {1, 0},
                                          {UINT64_MAX, UINT64_MAX - 1},
                                          {UINT64_MAX, UINT64_MAX},
                                          {0x0807060504030201, 0x100f0e0d0c0b0a09}};

enum { EDITIONS = sizeof editions / sizeof *editions };

/* What is sealed in one call and in pieces. */
struct job {
    size_t number;
    uint32_t width, rounds;
    struct edition edition;
    struct prng prng;
    uint8_t key[LONGEST_TAG], nonce[LONGEST_TAG];
    uint8_t note[JECZMILOT_NOTE_LIMIT], body[LONGEST], trailer[LONGEST];
    size_t tag_len, note_len, body_len, trailer_len;
    uint8_t header[JECZMILOT_HEADER_LIMIT], sealed[LONGEST + LONGEST_TAG];
    size_t header_len;
    uint32_t runs; /* of P, as norx_seal reports them; every other call on the whole job is to report the same */
};

/* Whether calls are written, or their answers read. */
static bool asks;

static size_t pieces;

static void demand(bool holds, const struct job *job, const char *what)
{
    if (holds)
        return;
    fprintf(stderr,
            "case %zu (%" PRIu32 " bits, %" PRIu32 " rounds, job %" PRIu64 ", revision %" PRIu64
            ", note of %zu bytes, body of %zu, trailer of %zu): %s\n",
            job->number, job->width, job->rounds, job->edition.job, job->edition.revision, job->note_len, job->body_len,
            job->trailer_len, what);
    exit(1);
}

static size_t take_digit(size_t *number, size_t base)
{
    size_t digit = *number % base;

    *number /= base;
    return digit;
}

/* The digits of the job's number say how long its parts are; a note of R - 16 bytes fills the header's first block. */
static void draw_job(struct job *job, size_t number)
{
    size_t left = number, rate;

    job->number = number;
    job->prng = prng_start(SEED, number);
    job->edition = editions[number % EDITIONS];
    job->width = take_digit(&left, WIDTHS) == 0 ? 32 : 64;
    job->rounds = take_digit(&left, ROUNDS) == 0 ? 4 : 6;
    job->tag_len = job->width / 2;
    rate = 12 * job->width / 8;
    job->note_len = (const size_t[NOTES]){
        0, 1, rate - 17, rate - 16, rate - 15, rate, JECZMILOT_NOTE_LIMIT}[take_digit(&left, NOTES)];
    job->body_len = (const size_t[BODIES]){0, 1, rate - 1, rate, rate + 1, 2 * rate}[take_digit(&left, BODIES)];
    job->trailer_len = take_digit(&left, TRAILERS) == 0 ? 0 : 1 + prng_below(&job->prng, 2 * rate);
    prng_fill(&job->prng, job->key, job->tag_len);
    prng_fill(&job->prng, job->nonce, job->tag_len);
    prng_fill(&job->prng, job->note, job->note_len);
    prng_fill(&job->prng, job->body, job->body_len);
    prng_fill(&job->prng, job->trailer, job->trailer_len);
}

static void seal_in_one_call(struct job *job)
{
    struct edition edition = job->edition;
    struct norx_outcome outcome;

    job->header_len = session_header(job->header, edition.job, edition.revision, job->note, job->note_len);
    outcome = norx_seal(job->width, job->rounds, job->key, job->tag_len, job->nonce, job->tag_len, job->header,
                        job->header_len, job->body, job->body_len, job->trailer, job->trailer_len, job->sealed,
                        job->body_len + job->tag_len);
    demand(outcome.answer == JECZMILOT_DONE, job, "norx_seal does not seal it");
    job->runs = outcome.runs;
}

static void open_in_one_call(const struct job *job, const uint8_t *text)
{
    uint8_t opened[LONGEST];
    struct norx_outcome outcome =
        norx_open(job->width, job->rounds, job->key, job->tag_len, job->nonce, job->tag_len, job->header,
                  job->header_len, text, job->body_len + job->tag_len, job->trailer, job->trailer_len, opened,
                  job->body_len);

    demand(outcome.answer == JECZMILOT_DONE, job, "norx_open does not open what the session sealed");
    demand(outcome.runs == job->runs, job, "norx_open reports other runs of P than norx_seal");
    demand(memcmp(opened, job->body, job->body_len) == 0, job, "norx_open gives another body");
}

static void write_bytes(const uint8_t *bytes, size_t length)
{
    if (length == 0)
        putchar('-');
    for (size_t i = 0; i < length; i++) {
        putchar("0123456789abcdef"[bytes[i] >> 4]);
        putchar("0123456789abcdef"[bytes[i] & 15]);
    }
}

static void expect_line(const struct job *job, const char *expected, const char *what)
{
    char line[LONGEST];

    demand(fgets(line, sizeof line, stdin) != NULL && strcmp(line, expected) == 0, job, what);
}

/* Reads so many bytes behind a front. */
static void expect_bytes(const struct job *job, const char *front, uint8_t *bytes, size_t length, const char *what)
{
    char line[2 * LONGEST + 32];
    size_t front_length = strlen(front);

    demand(fgets(line, sizeof line, stdin) != NULL && strncmp(line, front, front_length) == 0, job, what);
    demand(strlen(line) == front_length + 2 * length + 1, job, "an output has another length");
    for (size_t i = 0; i < length; i++)
        demand(sscanf(line + front_length + 2 * i, "%2" SCNx8, &bytes[i]) == 1, job, "an output is no bytes");
}

static void expect_piece(const struct job *job, uint8_t *bytes, size_t length)
{
    if (length == 0)
        expect_line(job, "0 -\n", "a piece is not taken, or has an output");
    else
        expect_bytes(job, "0 ", bytes, length, "a piece is not taken");
}

static void expect_tag(const struct job *job, uint8_t *tag)
{
    char front[32];

    snprintf(front, sizeof front, "0 %" PRIu32 " ", job->runs);
    expect_bytes(job, front, tag, job->tag_len, "a session is not closed, or with other runs of P than norx_seal");
}

static void expect_verdict(const struct job *job, uint32_t answer, const char *what)
{
    char line[32];

    snprintf(line, sizeof line, "%" PRIu32 " %" PRIu32 "\n", answer, job->runs);
    expect_line(job, line, what);
}

static void start(const struct job *job, const char *verb, struct edition edition)
{
    if (!asks) {
        expect_line(job, "0\n", "a session does not start");
        return;
    }
    printf("%s %" PRIu32 " %" PRIu32 " ", verb, job->width, job->rounds);
    write_bytes(job->key, job->tag_len);
    putchar(' ');
    write_bytes(job->nonce, job->tag_len);
    printf(" %" PRIu64 " %" PRIu64 "\n", edition.job, edition.revision);
}

/* Offers a part in random cuts, some of them empty; where there is an output it takes what the session writes. */
static void offer(struct job *job, struct edition edition, const char *part, const uint8_t *bytes, size_t length,
                  uint8_t *out)
{
    for (size_t offset = 0, cut; offset < length || prng_below(&job->prng, 2) == 0; offset += cut) {
        cut = prng_below(&job->prng, length - offset + 1);
        if (asks) {
            printf("piece %" PRIu64 " %" PRIu64 " %s %zu ", edition.job, edition.revision, part, offset);
            write_bytes(bytes + offset, cut);
            printf(" %zu\n", out != NULL ? cut : 0);
        } else {
            expect_piece(job, out != NULL ? out + offset : NULL, out != NULL ? cut : 0);
        }
        pieces++;
    }
}

/* Checks the text of one call in a session for this edition; every piece says that it is of that edition. */
static void check_in_pieces(struct job *job, struct edition edition, uint32_t answer, const char *what)
{
    start(job, "checking", edition);
    offer(job, edition, "note", job->note, job->note_len, NULL);
    offer(job, edition, "body", job->sealed, job->body_len, NULL);
    offer(job, edition, "trailer", job->trailer, job->trailer_len, NULL);
    if (!asks) {
        expect_verdict(job, answer, what);
        return;
    }
    printf("check %" PRIu64 " %" PRIu64 " ", edition.job, edition.revision);
    write_bytes(job->sealed + job->body_len, job->tag_len);
    putchar('\n');
}

static void seal_in_pieces(struct job *job, uint8_t *text)
{
    struct edition edition = job->edition;

    start(job, "sealing", edition);
    offer(job, edition, "note", job->note, job->note_len, NULL);
    offer(job, edition, "body", job->body, job->body_len, text);
    offer(job, edition, "trailer", job->trailer, job->trailer_len, NULL);
    if (asks)
        printf("close %" PRIu64 " %" PRIu64 " %zu\n", edition.job, edition.revision, job->tag_len);
    else
        expect_tag(job, text + job->body_len);
}

static void both_ways(struct job *job)
{
    const struct edition other = {job->edition.job + 1, job->edition.revision};
    uint8_t text[LONGEST + LONGEST_TAG];

    seal_in_one_call(job);
    check_in_pieces(job, job->edition, JECZMILOT_DONE,
                    "a session for its job does not check it with 0 and the runs of P of norx_seal");
    check_in_pieces(job, other, JECZMILOT_TAG_DIFFERS,
                    "a session for another job does not check it with 10 and the runs of P of norx_seal");
    seal_in_pieces(job, text);
    if (asks)
        return;
    demand(memcmp(text, job->sealed, job->body_len + job->tag_len) == 0, job, "a session seals another text");
    open_in_one_call(job, text);
}

int main(int count, char **arguments)
{
    static struct job job;

    asks = count == 2 && strcmp(arguments[1], "ask") == 0;
    if (!asks && (count != 2 || strcmp(arguments[1], "judge") != 0)) {
        fprintf(stderr, "usage: %s ask | judge\n", arguments[0]);
        return 2;
    }
    for (size_t number = 0; number < JOBS; number++) {
        draw_job(&job, number);
        both_ways(&job);
    }
    if (asks)
        return fflush(stdout) != 0;
    demand(getchar() == EOF, &job, "there is more behind the last answer");
    printf("%d jobs, %zu pieces: what one call seals is answered 0 in a session for its job and 10 in one for another; "
           "what a session seals is the same text, and opens in one call; all report the same runs of P\n",
           JOBS, pieces);
    return 0;
}
