#ifndef PRNG_H
#define PRNG_H

#include <stddef.h>
#include <stdint.h>
#include <string.h>

/* xorshift64*: a state of zero would stay zero, so the start never gives it. */
struct prng {
    uint64_t state;
};

/* Spreads seed and stream over the whole state, so that neighbouring streams have nothing in common. */
static inline struct prng prng_start(uint64_t seed, uint64_t stream)
{
    uint64_t x = seed + (stream + 1) * 0x9e3779b97f4a7c15u;

    x = (x ^ (x >> 30)) * 0xbf58476d1ce4e5b9u;
    x = (x ^ (x >> 27)) * 0x94d049bb133111ebu;
    x ^= x >> 31;
    return (struct prng){x != 0 ? x : 1};
}

static inline uint64_t prng_next(struct prng *prng)
{
    uint64_t x = prng->state;

    x ^= x >> 12;
    x ^= x << 25;
    x ^= x >> 27;
    prng->state = x;
    return x * 0x2545f4914f6cdd1du;
}

static inline size_t prng_below(struct prng *prng, size_t bound)
{
    return (size_t)((prng_next(prng) >> 16) % bound);
}

static inline void prng_fill(struct prng *prng, uint8_t *bytes, size_t length)
{
    while (length > 0) {
        uint64_t word = prng_next(prng);
        size_t taken = length < sizeof word ? length : sizeof word;

        memcpy(bytes, &word, taken);
        bytes += taken;
        length -= taken;
    }
}

#endif
