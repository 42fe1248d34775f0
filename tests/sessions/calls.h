#ifndef CALLS_H
#define CALLS_H

#include "language.h"

/* Fills the output anew, as it is before a call. */
uint8_t *lend_output(struct model *model, size_t length);

void write_answer(struct model *model, uint32_t answer);

/* The answer and the runs of P. */
void write_outcome(struct model *model, struct reference_outcome outcome);

/* The whole output, behind what is written already. */
void write_output(struct model *model, bool is_known);

/* A job and a revision, which stand side by side wherever they stand. */
struct edition edition_at(const struct argument *arguments);

/* The calls on segments. */
bool answer_segment(struct model *model, const struct argument *arguments);
bool answer_receiver(struct model *model, const struct argument *arguments);
bool answer_take(struct model *model, const struct argument *arguments);
bool answer_await(struct model *model, const struct argument *arguments);

/* The calls on lists. */
bool answer_list(struct model *model, const struct argument *arguments);
bool answer_read(struct model *model, const struct argument *arguments);
bool answer_fields(struct model *model, const struct argument *arguments);

#endif
