/* Sets of faults, for calls with several at once. */

#include "faults.h"

#include <string.h>

bool has(unsigned set, int fault)
{
    return (set >> fault & 1) != 0;
}

unsigned only(int fault)
{
    return 1u << fault;
}

uint32_t first_answer(const struct fault *faults, int count, unsigned set)
{
    for (int fault = 0; fault < count; fault++)
        if (has(set, fault))
            return faults[fault].answer;
    return 0;
}

void join_names(char *names, const struct fault *faults, int count, unsigned set)
{
    names[0] = '\0';
    for (int fault = 0; fault < count; fault++)
        if (has(set, fault)) {
            strcat(names, names[0] != '\0' ? "+" : "");
            strcat(names, faults[fault].name);
        }
}

size_t other_length(size_t right, struct prng *prng)
{
    size_t length = prng_below(prng, right + 2);

    return length < right ? length : length + 1;
}
