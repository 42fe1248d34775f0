#ifndef MAKER_H
#define MAKER_H

#include "language.h"
#include "prng.h"

/* One of these numbers, none of which may be drawn here: the order of draws would be the compiler's. */
#define PICK(prng, ...) \
    ((const uint64_t[]){__VA_ARGS__}[prng_below(prng, sizeof(uint64_t[]){__VA_ARGS__} / sizeof(uint64_t))])

/* Something to seal in a session, and its sealed text. */
struct job {
    struct message message;
    struct edition edition;
    struct buffer sealed;
};

/* A length around the rate often, seldom a long one. */
size_t draw_length(struct prng *prng, uint32_t width);

void job_make(struct job *job, struct prng *prng);

/* The bytes of a part as a session of this kind gets them, without the front. */
struct bytes job_part(const struct job *job, enum kind kind, unsigned part);

struct bytes job_tag(const struct job *job);

/* A job that goes in segments: its message's body is not what is cut. */
struct delivery {
    struct job job;
    struct buffer body;
};

/* One segment, most often a short one. */
void delivery_make(struct delivery *delivery, struct prng *prng);

/* Of the length and the setting whose turn it is, up to three segments. */
void delivery_make_long(struct delivery *delivery, size_t turn, struct prng *prng);

uint64_t delivery_segments(const struct delivery *delivery);

/* The segment of this index, which is below their number. */
struct segment delivery_segment(const struct delivery *delivery, uint64_t index);

struct series delivery_series(const struct delivery *delivery);

/* Makes a script line by line, and lets the model answer each, so that it knows how session and receiver stand. */
struct maker {
    struct prng prng;
    struct model model;
    struct buffer *script, line;
    struct buffer spare, same; /* random bytes, and as many of one value */
    struct job job;
    struct delivery delivery;
    struct buffer text; /* lists, or nearly */
    size_t lines;
};

void maker_start(struct maker *maker, struct buffer *script, struct prng prng);

/* Once in so many times. */
bool chance(struct maker *maker, size_t in);

struct bytes random_bytes(struct maker *maker, size_t length);

/* A word of a call by its form: a number, flag, part or standing, or bytes. */
struct word {
    uint64_t number;
    struct bytes bytes;
};

/* Changes one of the words or several to others of their form. */
void bend_some(struct maker *maker, const char *forms, struct word *words);

/* Writes a call and sends it, sometimes quiet, sometimes twice, and between other lines that change nothing. */
void send_call(struct maker *maker, const char *name, struct word *words, bool is_bent);

/* Each sends a call that should be done, or a bent one. */
void send_start(struct maker *maker, enum kind kind, bool is_bent);
void send_piece(struct maker *maker, bool is_bent);
void send_close(struct maker *maker, bool is_bent);
void send_one_call(struct maker *maker, bool is_bent);

/* Puts other numbers in place of the session's own, tries them, and most often puts those back. */
void send_invented(struct maker *maker);

/* Each sends a call on segments that should be done, or a bent one. */
void send_segment(struct maker *maker, uint64_t index, bool is_bent);
void send_receiver(struct maker *maker, bool is_bent);
void send_take(struct maker *maker, bool is_bent);

/* Seals under an index at an edge, most often a short segment that is flagged last. */
void send_far_segment(struct maker *maker);

/* Brings the receiver a text that was sealed for something else. */
void send_stray(struct maker *maker);

/* Lets the receiver wait for another index or with other rounds, tries that, and most often puts its own back. */
void send_awaiting(struct maker *maker);

/* Changes the maker's text, which is one list or two, most often by one byte. */
void change_text(struct maker *maker);

/* Each sends a call on lists; that of a far one has a body around the longest or past it. */
void send_list(struct maker *maker, bool is_bent);
void send_far_list(struct maker *maker);
void send_read(struct maker *maker, bool is_changed);
void send_fields(struct maker *maker);

/* Has the longest list written that an argument has room for, and read as it is and changed. */
void send_longest_list(struct maker *maker);

#endif
