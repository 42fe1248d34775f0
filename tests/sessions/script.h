#ifndef SCRIPT_H
#define SCRIPT_H

#include "buffer.h"
#include "prng.h"

/* The scripts have the numbers 1 to SCRIPTS: those of sessions, then the one of long lines, then those of segments,
   then those of lists. */
enum { LONG_LINES = 60, LAST_OF_SEGMENTS = 72, SCRIPTS = 84 };

/* Makes the script of this number; its bytes follow from the seed and the number alone. */
void make_script(struct buffer *script, uint64_t seed, uint64_t number);

/* Lines around the longest. */
void long_lines(struct buffer *script);

/* Makes some change to a line, which is most often no call afterwards. */
void spoil(struct buffer *line, struct prng *prng);

#endif
