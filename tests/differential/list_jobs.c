/* Random jobs, listed and read back. */

#include "cases.h"
#include "families.h"
#include "list.h"

enum { JOBS = 2000, USUAL_SEGMENTS = 30, MORE_SEGMENTS = 3000 };

static uint64_t any_length(int number, struct prng *prng)
{
    size_t segments = prng_below(prng, number % 100 == 0 ? MORE_SEGMENTS : USUAL_SEGMENTS);

    return segments * SEGMENT_BYTES + (prng_below(prng, 4) == 0 ? 0 : prng_below(prng, SEGMENT_BYTES + 1));
}

void listed_jobs(void)
{
    family_begins("listed jobs");
    for (int number = 1; number <= JOBS; number++) {
        struct prng prng;
        struct listed listed;

        if (!case_begins("listed job %d", number))
            continue;
        prng = case_prng();
        listed = any_edition(&prng);
        listed.length = any_length(number, &prng);
        compare_list_there_and_back(&listed);
    }
}
