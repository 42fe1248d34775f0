/* Random jobs, cut into segments, sealed, and taken in order by a host that keeps the index and whether the job is
   complete; wrong segments are offered between the right ones. */

#include "cases.h"
#include "families.h"
#include "segment.h"

enum { JOBS = 24, LONGEST_JOB = 3 * SEGMENT_BYTES, EDGES = 7 };

/* The message has the whole job, and the sealed segments one behind another. */
struct job {
    struct message *message;
    struct place place;
    size_t length, segments;
};

/* What the host keeps; the bytes that it has handed out are counted. */
struct host {
    uint64_t index;
    uint32_t complete;
    size_t handed_out;
};

static uint32_t is_last(const struct job *job, uint64_t index)
{
    return index + 1 == job->segments ? 1 : 0;
}

static size_t body_length(const struct job *job, uint64_t index)
{
    return is_last(job, index) ? job->length - (size_t)index * SEGMENT_BYTES : SEGMENT_BYTES;
}

static uint8_t *sealed_at(const struct job *job, uint64_t index)
{
    return job->message->sealed + (size_t)index * (SEGMENT_BYTES + tag_length(job->message->instance));
}

static struct call seal_of(const struct job *job, uint64_t index)
{
    struct call call = segment_call(job->message, SEGMENT_SEAL);

    call.place = job->place;
    call.place.index = index;
    call.place.last = is_last(job, index);
    call.body = (struct bytes){job->message->body + (size_t)index * SEGMENT_BYTES, body_length(job, index)};
    call.out_len = call.body.length + tag_length(job->message->instance);
    return call;
}

/* The segment of that index, with the flag that it came with, offered to the host as the one that it waits for. */
static struct call offer_of(const struct job *job, const struct host *host, uint64_t index)
{
    struct call call = seal_of(job, index);

    call.operation = SEGMENT_OPEN;
    call.place.index = host->index;
    call.place.complete = host->complete;
    call.body = (struct bytes){sealed_at(job, index), call.out_len};
    call.out_len = body_length(job, index);
    return call;
}

static void offer_cut(const struct job *job, const struct host *host)
{
    struct call call = offer_of(job, host, host->index);
    bool may_be_last = call.place.last && call.out_len > (host->index == 0 ? 0 : 1);

    call.body.length--;
    call.out_len -= call.out_len > 0 ? 1 : 0;
    compare_call(&call, may_be_last ? BAD_TAG : BAD_SEGMENT);
}

static void offer_damaged(const struct job *job, const struct host *host, struct prng *prng)
{
    struct call call = offer_of(job, host, host->index);
    uint8_t *byte = sealed_at(job, host->index) + prng_below(prng, call.body.length);

    *byte ^= 0x10;
    compare_call(&call, BAD_TAG);
    *byte ^= 0x10;
}

/* One of the wrong segments: cut, damaged, the one before, or the one behind. The host keeps what it has. */
static void offer_wrong(const struct job *job, const struct host *host, struct prng *prng)
{
    size_t kind = prng_below(prng, 4);
    struct call call;

    if (kind == 0) {
        offer_cut(job, host);
    } else if (kind == 1 || job->segments == 1) {
        offer_damaged(job, host, prng);
    } else {
        call = offer_of(job, host, (host->index + (kind == 2 ? 1 : job->segments - 1)) % job->segments);
        compare_call(&call, BAD_TAG);
    }
}

static void offer_right(const struct job *job, struct host *host)
{
    struct call call = offer_of(job, host, host->index);

    compare_call(&call, DONE);
    compare_output(job->message->body + host->handed_out, call.out_len);
    host->handed_out += call.out_len;
    host->index++;
    host->complete = call.place.last;
}

static void receive(const struct job *job, struct prng *prng)
{
    struct host host = {0, 0, 0};
    struct call call;

    while (!host.complete) {
        while (prng_below(prng, 3) == 0)
            offer_wrong(job, &host, prng);
        offer_right(job, &host);
    }
    if (host.handed_out != job->length || host.index != job->segments)
        case_differs("%zu bytes were handed out of %zu", host.handed_out, job->length);
    call = offer_of(job, &host, prng_below(prng, job->segments));
    compare_call(&call, AFTER_LAST);
}

static size_t job_length(int number, struct prng *prng)
{
    static const size_t edges[EDGES] = {
        0, 1, SEGMENT_BYTES - 1, SEGMENT_BYTES, SEGMENT_BYTES + 1, 2 * SEGMENT_BYTES, 2 * SEGMENT_BYTES + 1};

    return number < EDGES ? edges[number] : prng_below(prng, LONGEST_JOB + 1);
}

static void one_job(struct message *message, struct instance instance, int number)
{
    struct prng prng;
    struct job job = {.message = message};

    if (!case_begins("segment job %u %u %d", instance.width, instance.rounds, number))
        return;
    prng = case_prng();
    job.place = place_at(0, 0, &prng);
    job.length = job_length(number, &prng);
    job.segments = job.length == 0 ? 1 : (job.length + SEGMENT_BYTES - 1) / SEGMENT_BYTES;
    message_draw(message, instance, (struct lengths){prng_below(&prng, 100), job.length, 0}, &prng);
    for (size_t index = 0; index < job.segments; index++) {
        struct call call = seal_of(&job, index);

        compare_call(&call, DONE);
        take_output(sealed_at(&job, index), call.out_len);
    }
    receive(&job, &prng);
}

void segmented_jobs(struct message *message)
{
    family_begins("segmented jobs");
    for (int i = 0; i < INSTANCES; i++)
        for (int number = 0; number < JOBS; number++)
            one_job(message, instances[i], number);
}
