/* Every refusal number alone, from many wrong values. */

#include "cases.h"
#include "families.h"
#include "segment.h"

enum { FARTHEST_OUTPUT = 50 };

/* Numbers beside the right ones, and numbers that look right in their low bits. */

static const uint32_t bad_widths[] = {
    0,   1,   4,   8,    16,    31,    33,    48,       63,         65,         96,        128,
    256, 288, 320, 8192, 16384, 65568, 65600, 16777248, 2147483680, 2147483712, UINT32_MAX,
};

static const uint32_t bad_rounds[] = {
    0, 1, 2, 3, 5, 7, 8, 10, 12, 14, 16, 260, 262, 65540, 65542, 2147483652, 2147483654, UINT32_MAX,
};

#define COUNT(array) (sizeof(array) / sizeof *(array))

/* Makes a small message or segment for the case and gives the call that would be done. */
static struct call good_call(struct message *message, struct instance instance, enum operation operation)
{
    struct prng prng = case_prng();

    if (operation == SEGMENT_SEAL || operation == SEGMENT_OPEN) {
        small_segment(message, instance, &prng);
        return segment_call(message, operation);
    }
    message_fill(message, instance, random_lengths(instance, &prng), &prng);
    return operation == SEAL ? seal_call(message) : open_call(message);
}

static bool refusal_begins(struct instance instance, enum operation operation, const char *what, size_t value)
{
    return case_begins("refusal %s %u %u %s %zu", operation_name(operation), instance.width, instance.rounds, what,
                       value);
}

static void numbers(struct message *message, struct instance instance, enum operation operation)
{
    for (size_t i = 0; i < COUNT(bad_widths); i++)
        if (refusal_begins(instance, operation, "width", bad_widths[i])) {
            struct call call = good_call(message, instance, operation);

            call.width = bad_widths[i];
            compare_call(&call, BAD_WIDTH);
        }
    for (size_t i = 0; i < COUNT(bad_rounds); i++)
        if (refusal_begins(instance, operation, "rounds", bad_rounds[i])) {
            struct call call = good_call(message, instance, operation);

            call.rounds = bad_rounds[i];
            compare_call(&call, BAD_ROUNDS);
        }
}

static void key_and_nonce(struct message *message, struct instance instance, enum operation operation,
                          size_t nonce_length)
{
    for (size_t length = 0; length <= LONGEST_KEY; length++) {
        if (length != tag_length(instance) && refusal_begins(instance, operation, "key", length)) {
            struct call call = good_call(message, instance, operation);

            call.key.length = length;
            compare_call(&call, BAD_KEY_OR_NONCE);
        }
        if (length != nonce_length && refusal_begins(instance, operation, "nonce", length)) {
            struct call call = good_call(message, instance, operation);

            call.nonce.length = length;
            compare_call(&call, BAD_KEY_OR_NONCE);
        }
    }
}

/* Nearest to right would be an output of no bytes, so each length is tried with that and with more. */
static void short_sealed_texts(struct message *message, struct instance instance, enum operation operation,
                               uint32_t answer)
{
    for (size_t length = 0; length < tag_length(instance); length++)
        for (size_t out_len = 0; out_len <= tag_length(instance); out_len += tag_length(instance))
            if (case_begins("refusal %s %u %u short %zu to %zu", operation_name(operation), instance.width,
                            instance.rounds, length, out_len)) {
                struct call call = good_call(message, instance, operation);

                call.body.length = length;
                call.out_len = out_len;
                compare_call(&call, answer);
            }
}

static void one_output(struct message *message, struct instance instance, enum operation operation, int farther)
{
    struct call call;

    if (!case_begins("refusal %s %u %u output %+d", operation_name(operation), instance.width, instance.rounds,
                     farther))
        return;
    call = good_call(message, instance, operation);
    if (farther < 0 && call.out_len < (size_t)-farther)
        call.out_len = call.out_len == 0 ? 1 : 0;
    else
        call.out_len += farther;
    compare_call(&call, BAD_OUTPUT);
}

static void outputs(struct message *message, struct instance instance, enum operation operation)
{
    for (int farther = -FARTHEST_OUTPUT; farther <= FARTHEST_OUTPUT; farther++)
        if (farther != 0)
            one_output(message, instance, operation, farther);
}

void single_refusals(struct message *message)
{
    family_begins("single refusals");
    for (int i = 0; i < INSTANCES; i++) {
        for (enum operation operation = SEAL; operation <= OPEN; operation++) {
            numbers(message, instances[i], operation);
            key_and_nonce(message, instances[i], operation, tag_length(instances[i]));
            outputs(message, instances[i], operation);
        }
        short_sealed_texts(message, instances[i], OPEN, TOO_SHORT);
    }
}

void single_refusals_of_segments(struct message *message)
{
    family_begins("single refusals of segments");
    for (int i = 0; i < INSTANCES; i++) {
        for (enum operation operation = SEGMENT_SEAL; operation <= SEGMENT_OPEN; operation++) {
            numbers(message, instances[i], operation);
            key_and_nonce(message, instances[i], operation, job_nonce_length(instances[i]));
            outputs(message, instances[i], operation);
        }
        short_sealed_texts(message, instances[i], SEGMENT_OPEN, BAD_SEGMENT);
    }
}
