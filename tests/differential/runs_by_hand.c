/* The runs of P, written out for lengths around the rates and for the longest calls. */

#include "cases.h"
#include "families.h"
#include "jeczmilot.h"
#include "segment.h"

/* A segment's header is its note, and it has no trailer. */
struct written_out {
    struct lengths lengths;
    uint32_t runs_32, runs_64;
};

static const struct written_out messages[] = {
    {{0, 0, 0}, 3, 3},
    {{1, 0, 0}, 4, 4},
    {{0, 1, 0}, 4, 4},
    {{0, 0, 1}, 4, 4},
    {{1, 1, 1}, 6, 6},
    {{47, 0, 0}, 4, 4},
    {{48, 0, 0}, 5, 4},
    {{0, 48, 0}, 5, 4},
    {{0, 0, 48}, 5, 4},
    {{95, 0, 0}, 5, 4},
    {{96, 0, 0}, 6, 5},
    {{0, 96, 0}, 6, 5},
    {{0, 0, 96}, 6, 5},
    {{48, 95, 96}, 10, 7},
    {{EDGE_LIMIT, 0, EDGE_LIMIT}, 2735, 1369},
    {{EDGE_LIMIT, BODY_LIMIT, EDGE_LIMIT}, JECZMILOT_RUNS_LIMIT_32, JECZMILOT_RUNS_LIMIT_64},
};

static const struct written_out segments[] = {
    {{0, 0, 0}, 4, 4},
    {{0, 1, 0}, 5, 5},
    {{31, 0, 0}, 4, 4},
    {{32, 0, 0}, 5, 4},
    {{32, 48, 0}, 7, 5},
    {{79, 0, 0}, 5, 4},
    {{80, 0, 0}, 6, 5},
    {{80, 96, 0}, 9, 7},
    {{NOTE_LIMIT, 0, 0}, 1369, 686},
    {{NOTE_LIMIT, SEGMENT_BYTES, 0}, JECZMILOT_SEGMENT_RUNS_LIMIT_32, JECZMILOT_SEGMENT_RUNS_LIMIT_64},
};

static uint32_t runs_of(struct instance instance, const struct written_out *written_out)
{
    return instance.width == 32 ? written_out->runs_32 : written_out->runs_64;
}

static void compare_answer_and_runs(const struct call *call, uint32_t answer, uint32_t runs)
{
    compare_call(call, answer);
    compare_runs(runs);
}

/* The full number with 0 and with 10, and none with an output that is too long. */
static void seal_and_open(struct message *message, struct call seal, struct call open, uint32_t runs)
{
    compare_answer_and_runs(&seal, DONE, runs);
    compare_answer_and_runs(&open, DONE, runs);
    message->sealed[message->lengths.body] ^= 1;
    compare_answer_and_runs(&open, BAD_TAG, runs);
    seal.out_len++;
    compare_answer_and_runs(&seal, BAD_OUTPUT, 0);
    open.out_len++;
    compare_answer_and_runs(&open, BAD_OUTPUT, 0);
}

static void one_message(struct message *message, struct instance instance, const struct written_out *written_out)
{
    struct lengths lengths = written_out->lengths;
    struct prng prng;

    if (!case_begins("runs by hand %u %u %zu %zu %zu", instance.width, instance.rounds, lengths.header, lengths.body,
                     lengths.trailer))
        return;
    prng = case_prng();
    message_fill(message, instance, lengths, &prng);
    seal_and_open(message, seal_call(message), open_call(message), runs_of(instance, written_out));
}

static void one_segment(struct message *message, struct instance instance, const struct written_out *written_out)
{
    struct lengths lengths = written_out->lengths;
    struct prng prng;

    if (!case_begins("runs by hand %u %u segment %zu %zu", instance.width, instance.rounds, lengths.header,
                     lengths.body))
        return;
    prng = case_prng();
    segment_fill(message, instance, place_at(0, 1, &prng), lengths.header, lengths.body, &prng);
    seal_and_open(message, segment_call(message, SEGMENT_SEAL), segment_call(message, SEGMENT_OPEN),
                  runs_of(instance, written_out));
}

void runs_by_hand(struct message *message)
{
    family_begins("runs by hand");
    for (int i = 0; i < INSTANCES; i++) {
        for (size_t row = 0; row < sizeof messages / sizeof *messages; row++)
            one_message(message, instances[i], &messages[row]);
        for (size_t row = 0; row < sizeof segments / sizeof *segments; row++)
            one_segment(message, instances[i], &segments[row]);
    }
}
