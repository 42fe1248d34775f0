#ifndef FAMILIES_H
#define FAMILIES_H

#include "message.h"

/* Each runs its cases in a fixed order, using the message as its working space. */

void published_vectors(struct message *message, const char *path);

void lengths_around_the_rate(struct message *message);

void random_messages(struct message *message);

void damaged_messages(struct message *message);

void large_bodies(struct message *message);

void parts_at_their_limits(struct message *message);

void single_refusals(struct message *message);

void refusals_at_once(struct message *message);

void null_pointers(struct message *message);

/* Of segments. */

void segments_by_hand(struct message *message);

void segment_lengths(struct message *message);

void segment_notes(struct message *message);

void segment_flags(struct message *message);

void single_refusals_of_segments(struct message *message);

void segment_refusals_at_once(struct message *message);

void damaged_segments(struct message *message);

void segment_null_pointers(struct message *message);

void segmented_jobs(struct message *message);

/* Of lists; these have a working space of their own. */

void lists_by_hand(void);

void list_lengths(void);

void listed_jobs(void);

void list_outputs(void);

void list_numbers(void);

void list_rules(void);

void damaged_lists(void);

void list_prefixes(void);

void list_null_pointers(void);

void largest_lists(void);

/* Of whole messages and of segments. */

void runs_by_hand(struct message *message);

#endif
