/* Makes one call with the library and with the reference and compares all that they leave behind. */

#include "compare.h"

#include <inttypes.h>
#include <string.h>

#include "cases.h"
#include "guarded.h"
#include "jeczmilot.h"
#include "norx.h"
#include "segments.h"

enum { INPUTS = 5 };

static const char *const input_names[INPUTS] = {"key", "nonce", "header or note", "body or sealed text", "trailer"};

static struct guarded lent_inputs[INPUTS];
static struct guarded library_output, reference_output;
static enum operation last_operation;
static uint32_t last_runs;

const char *operation_name(enum operation operation)
{
    static const char *const names[] = {"seal", "open", "segment-seal", "segment-open"};

    return names[operation];
}

static struct norx_outcome call_library(const struct call *c, uint8_t *out)
{
    const struct place *p = &c->place;

    switch (c->operation) {
    case SEAL:
        return norx_seal(c->width, c->rounds, c->key.at, c->key.length, c->nonce.at, c->nonce.length, c->header.at,
                         c->header.length, c->body.at, c->body.length, c->trailer.at, c->trailer.length, out,
                         c->out_len);
    case OPEN:
        return norx_open(c->width, c->rounds, c->key.at, c->key.length, c->nonce.at, c->nonce.length, c->header.at,
                         c->header.length, c->body.at, c->body.length, c->trailer.at, c->trailer.length, out,
                         c->out_len);
    case SEGMENT_SEAL:
        return norx_segment_seal(c->width, c->rounds, c->key.at, c->key.length, c->nonce.at, c->nonce.length, p->job,
                                 p->revision, c->header.at, c->header.length, p->index, p->last, c->body.at,
                                 c->body.length, out, c->out_len);
    default:
        return norx_segment_open(c->width, c->rounds, c->key.at, c->key.length, c->nonce.at, c->nonce.length, p->job,
                                 p->revision, c->header.at, c->header.length, p->index, p->complete, p->last,
                                 c->body.at, c->body.length, out, c->out_len);
    }
}

static struct reference_outcome call_reference(const struct call *c, uint8_t *out)
{
    const struct place *p = &c->place;

    switch (c->operation) {
    case SEAL:
        return reference_seal(c->width, c->rounds, c->key.at, c->key.length, c->nonce.at, c->nonce.length,
                              c->header.at, c->header.length, c->body.at, c->body.length, c->trailer.at,
                              c->trailer.length, out, c->out_len);
    case OPEN:
        return reference_open(c->width, c->rounds, c->key.at, c->key.length, c->nonce.at, c->nonce.length,
                              c->header.at, c->header.length, c->body.at, c->body.length, c->trailer.at,
                              c->trailer.length, out, c->out_len);
    case SEGMENT_SEAL:
        return reference_segment_seal(c->width, c->rounds, c->key.at, c->key.length, c->nonce.at, c->nonce.length,
                                      p->job, p->revision, c->header.at, c->header.length, p->index, p->last,
                                      c->body.at, c->body.length, out, c->out_len);
    default:
        return reference_segment_open(c->width, c->rounds, c->key.at, c->key.length, c->nonce.at, c->nonce.length,
                                      p->job, p->revision, c->header.at, c->header.length, p->index, p->complete,
                                      p->last, c->body.at, c->body.length, out, c->out_len);
    }
}

/* Fills the output anew, and gives what the call is lent of it. */
static uint8_t *lend_output(const struct call *call, struct guarded *output)
{
    guarded_output(output, call->out_len, case_number());
    return call->out_is_null ? NULL : output->bytes;
}

static struct bytes *input_of(struct call *call, int input)
{
    struct bytes *const inputs[INPUTS] = {&call->key, &call->nonce, &call->header, &call->body, &call->trailer};

    return inputs[input];
}

/* Gives the call with copies of its inputs, each differently aligned; a null pointer stays one. */
static struct call lend_inputs(const struct call *call)
{
    struct call lent = *call;

    for (int i = 0; i < INPUTS; i++) {
        struct bytes *input = input_of(&lent, i);

        guarded_input(&lent_inputs[i], input->at, input->length, case_number() * (2 * i + 1) + i);
        if (input->at != NULL)
            input->at = lent_inputs[i].bytes;
    }
    return lent;
}

static void compare_inputs(const struct call *call)
{
    struct call given = *call;

    for (int i = 0; i < INPUTS; i++) {
        const struct bytes *input = input_of(&given, i);

        if (input->length > 0 && memcmp(input->at, lent_inputs[i].bytes, input->length) != 0)
            case_differs("%s: the library changed the %s", operation_name(call->operation), input_names[i]);
        if (!guards_are_intact(&lent_inputs[i]))
            case_differs("%s: the library wrote outside the %s", operation_name(call->operation), input_names[i]);
    }
}

/* Reports the first byte of the library's output that is not the other one's. */
static void compare_bytes(const char *other_name, const uint8_t *other, size_t length)
{
    for (size_t i = 0; i < length; i++)
        if (library_output.bytes[i] != other[i]) {
            case_differs("%s: output byte %zu of %zu is %02x, in %s %02x", operation_name(last_operation), i, length,
                         library_output.bytes[i], other_name, other[i]);
            return;
        }
}

/* What the answer alone says of the output and the runs, whatever the reference does. */
static void compare_with_rule(const char *operation, struct norx_outcome library)
{
    bool is_refused = library.answer != DONE && library.answer != BAD_TAG;

    if (library.answer == BAD_TAG && !output_is_zero(&library_output))
        case_differs("%s: answer 10 left an output that is not all zero", operation);
    if (is_refused && !output_is_untouched(&library_output))
        case_differs("%s: answer %" PRIu32 " changed the output", operation, library.answer);
    if (is_refused && library.runs != 0)
        case_differs("%s: answer %" PRIu32 " reports %" PRIu32 " runs of P and not 0", operation, library.answer,
                     library.runs);
    if (!guards_are_intact(&library_output))
        case_differs("%s: the library wrote outside the output", operation);
    if (!guards_are_intact(&reference_output))
        case_differs("%s: the reference wrote outside the output", operation);
}

void compare_call(const struct call *call, uint32_t expected_answer)
{
    const char *operation = operation_name(call->operation);
    struct call lent = lend_inputs(call);
    uint8_t *library_out = lend_output(call, &library_output);
    uint8_t *reference_out = lend_output(call, &reference_output);
    struct norx_outcome library = call_library(&lent, library_out);
    struct reference_outcome reference = call_reference(call, reference_out);

    last_operation = call->operation;
    last_runs = library.runs;
    if (library.answer != expected_answer || reference.answer != expected_answer)
        case_differs("%s: answer %" PRIu32 ", the reference answers %" PRIu32 ", expected is %" PRIu32, operation,
                     library.answer, reference.answer, expected_answer);
    if (library.runs != reference.runs)
        case_differs("%s: answer %" PRIu32 " reports %" PRIu32 " runs of P, the reference counts %" PRIu32, operation,
                     library.answer, library.runs, reference.runs);
    compare_bytes("the reference's output", reference_output.bytes, call->out_len);
    compare_with_rule(operation, library);
    compare_inputs(call);
}

void compare_runs(uint32_t expected)
{
    if (last_runs != expected)
        case_differs("%s: %" PRIu32 " runs of P are reported, expected are %" PRIu32, operation_name(last_operation),
                     last_runs, expected);
}

void compare_output(const uint8_t *expected, size_t length)
{
    if (library_output.length != length)
        case_differs("%s: output of %zu bytes, expected are %zu", operation_name(last_operation),
                     library_output.length, length);
    else
        compare_bytes("the expected output", expected, length);
}

void take_output(uint8_t *to, size_t length)
{
    memcpy(to, library_output.bytes, length);
}
