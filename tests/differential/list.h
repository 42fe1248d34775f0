#ifndef LIST_H
#define LIST_H

#include "compare.h"
#include "lists.h"
#include "prng.h"
#include "segment.h"

enum { MOST_SEGMENTS = LAST_INDEX + 1, LONGEST_TEXT = 4096 };

/* The job that a list is of; its body has so many bytes. */
struct listed {
    uint64_t job, revision, length;
};

extern const uint64_t list_body_limit;

/* What reading the list of that job gives. */
struct reference_list numbers_of(const struct listed *listed);

/* The length that the reference gives. */
size_t list_length(const struct listed *listed);

/* A number of any count of digits, or near a power of ten or the largest. */
uint64_t any_number(struct prng *prng);

/* Any job and any revision, and an empty body. */
struct listed any_edition(struct prng *prng);

/* A short text, made piece by piece. */
struct text {
    char bytes[LONGEST_TEXT];
    size_t length;
};

void text_add(struct text *text, const char *format, ...) __attribute__((format(printf, 2, 3)));

void text_add_bytes(struct text *text, const void *bytes, size_t length);

/* Adds the list of that job, written with printf. */
void text_add_list(struct text *text, const struct listed *listed);

/* Each of these calls library and reference, reports whatever differs between them or from what is expected, and says
   whether nothing did. */

bool compare_list_length(const struct listed *listed, size_t expected);

bool compare_list_write(const struct listed *listed, size_t out_len, uint32_t expected_answer);

/* With a null pointer of length 0 for the output. */
bool compare_list_write_to_null(const struct listed *listed, uint32_t expected_answer);

/* The library reads the text where it stands, and also copies of it that touch guards and forbidden pages. */
bool compare_list_read(struct bytes text, struct reference_list expected);

/* The same for a short text, with what is expected worked out by the definition. */
bool compare_text_read(const struct text *text);

/* Library and reference read the text where it stands, and nothing is copied. */
bool compare_long_list_read(struct bytes text, struct reference_list expected);

/* Compares the length of the list, then writing, then reading what was written. */
bool compare_list_there_and_back(const struct listed *listed);

/* The library's last output. */
struct bytes written_list(void);

#endif
