/* Messages with random content, and the calls that seal and open them. */

#include "message.h"

#include <stdio.h>
#include <stdlib.h>

#include "norx.h"

const struct instance instances[INSTANCES] = {{32, 4}, {32, 6}, {64, 4}, {64, 6}};

size_t tag_length(struct instance instance)
{
    return instance.width / 2;
}

size_t rate_of(struct instance instance)
{
    return instance.width / 8 * 12;
}

size_t sealed_length(const struct message *message)
{
    return message->lengths.body + tag_length(message->instance);
}

static uint8_t *allocate(size_t length)
{
    uint8_t *bytes = malloc(length);

    if (bytes == NULL) {
        fprintf(stderr, "no memory for %zu bytes\n", length);
        exit(2);
    }
    return bytes;
}

void message_allocate(struct message *message)
{
    message->header = allocate(EDGE_LIMIT + 1);
    message->body = allocate(BODY_LIMIT + 1);
    message->trailer = allocate(EDGE_LIMIT + 1);
    message->sealed = allocate(BODY_LIMIT + 1 + LONGEST_TAG);
}

void message_free(struct message *message)
{
    free(message->header);
    free(message->body);
    free(message->trailer);
    free(message->sealed);
}

void message_draw(struct message *m, struct instance instance, struct lengths lengths, struct prng *prng)
{
    m->instance = instance;
    m->lengths = lengths;
    prng_fill(prng, m->key, sizeof m->key);
    prng_fill(prng, m->nonce, sizeof m->nonce);
    prng_fill(prng, m->header, lengths.header);
    prng_fill(prng, m->body, lengths.body);
    prng_fill(prng, m->trailer, lengths.trailer);
}

void message_fill(struct message *m, struct instance instance, struct lengths lengths, struct prng *prng)
{
    size_t tag = tag_length(instance);

    message_draw(m, instance, lengths, prng);
    if (lengths.header > EDGE_LIMIT || lengths.body > BODY_LIMIT || lengths.trailer > EDGE_LIMIT)
        prng_fill(prng, m->sealed, sealed_length(m));
    else
        reference_seal(instance.width, instance.rounds, m->key, tag, m->nonce, tag, m->header, lengths.header,
                       m->body, lengths.body, m->trailer, lengths.trailer, m->sealed, sealed_length(m));
}

static size_t random_length(size_t rate, struct prng *prng)
{
    switch (prng_below(prng, 8)) {
    case 0:
        return 0;
    case 1:
        return rate * (1 + prng_below(prng, 4));
    case 2:
        return rate * (1 + prng_below(prng, 4)) - 1;
    case 3:
        return rate * prng_below(prng, 4) + 1;
    default:
        return prng_below(prng, 5 * rate);
    }
}

struct lengths random_lengths(struct instance instance, struct prng *prng)
{
    struct lengths lengths;

    lengths.header = random_length(rate_of(instance), prng);
    lengths.body = random_length(rate_of(instance), prng);
    lengths.trailer = random_length(rate_of(instance), prng);
    return lengths;
}

struct call seal_call(const struct message *m)
{
    size_t tag = tag_length(m->instance);

    return (struct call){.operation = SEAL,
                         .width = m->instance.width,
                         .rounds = m->instance.rounds,
                         .key = {m->key, tag},
                         .nonce = {m->nonce, tag},
                         .header = {m->header, m->lengths.header},
                         .body = {m->body, m->lengths.body},
                         .trailer = {m->trailer, m->lengths.trailer},
                         .out_len = sealed_length(m)};
}

struct call open_call(const struct message *m)
{
    struct call call = seal_call(m);

    call.operation = OPEN;
    call.body = (struct bytes){m->sealed, sealed_length(m)};
    call.out_len = m->lengths.body;
    return call;
}

void compare_there_and_back(const struct message *message)
{
    struct call seal = seal_call(message);
    struct call open = open_call(message);

    compare_call(&seal, DONE);
    compare_output(message->sealed, sealed_length(message));
    compare_call(&open, DONE);
    compare_output(message->body, message->lengths.body);
}
