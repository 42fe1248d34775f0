/* Jeczmilot: sealing and opening of machine jobs with NORX 3.0, parallelism 1 (the plain form, one block after another).
 *
 * Seven calls: two for a whole job, two for a segment of one, and three for the list of its segments. Each ends with an
 * answer, for any numbers and bytes given to it; nothing is asked beforehand but what "Buffers" below says. Look at the
 * answer before anything else. The calls for a whole job and for a segment give a struct norx_outcome: the answer, and
 * how much work it was ("Runs").
 *
 * WIDTHS           32-bit words    64-bit words
 *   width               32              64        given as a number; any other is answered 11
 *   rounds            4 or 6          4 or 6
 *   key                 16              32        bytes, exactly
 *   nonce               16              32        bytes, exactly
 *   job nonce            8              24        bytes, exactly, in place of the nonce (segments)
 *   tag                 16              32        bytes
 *
 * LENGTHS
 *   header and trailer   0 to 65,536 bytes each: bound to the body by the tag, and not encrypted
 *   body                 0 to 16,777,216 bytes
 *   sealed text          the body's ciphertext, as long as the body, followed by the tag
 *   out of norx_seal     exactly body_len + tag
 *   out of norx_open     exactly sealed_len - tag
 *   "Segments" below has the lengths of a segment and of its note, and "Lists" those of a list.
 *
 * ANSWERS, the first that applies in the order of the lines here
 *    0  done: out holds the sealed text, the message, or the list
 *   11  the width is neither 32 nor 64                   out is unchanged
 *   14  the job is complete: a segment after the last    out is unchanged   (norx_segment_open)
 *   13  the segment has not the length of its index and
 *       flag, or its index is too high                   out is unchanged   (norx_segment_seal, norx_segment_open)
 *    2  the rounds are neither 4 nor 6                   out is unchanged
 *    1  the key, the nonce or the job nonce has not the
 *       width's length                                   out is unchanged
 *    3  the sealed text is shorter than a tag            out is unchanged   (norx_open)
 *    4  header, body, trailer or note is over its limit  out is unchanged
 *    5  out_len is not the exact length                  out is unchanged
 *   10  the tag differs in any byte                      every byte of out is zero   (norx_open, norx_segment_open)
 * So the order is, for each call:
 *   norx_seal                11, 2, 1, 4, 5
 *   norx_open                11, 2, 1, 3, 4, 5, 10
 *   norx_segment_seal        11, 13, 2, 1, 4, 5
 *   norx_segment_open        11, 14, 13, 2, 1, 4, 5, 10
 *   norx_list_write          4, 5
 * A sealed segment that is shorter than a tag is answered 13, and never 3; of a segment 4 is for the note alone, and of
 * a list for the body, which has another limit there ("Lists").
 * norx_list_length gives a length, and norx_list_read what it read, with the number of a bad line in place of an answer.
 * The numbers 6 to 9 and 12 are for sessions and are never given by these calls.
 *
 * RUNS
 *   NORX works by running a permutation, P, of 4 or 6 rounds. norx_seal, norx_open, norx_segment_seal and
 *   norx_segment_open say beside the answer how many times it ran, so that a machine can be planned:
 *     on 0 and on 10        3, and for each of header, body and trailer that has n bytes, n > 0, n / R + 1 more,
 *                           n / R rounded down
 *     on any other answer   0
 *   R is 48 bytes at 32-bit words, and 96 at 64-bit words; an empty part adds nothing. In opening the body is the
 *   sealed text without its tag: so opening a text takes as many runs as sealing it did, and on 10 as many as on 0.
 *   The header of a segment is job number, revision and note, 16 bytes more than the note, so it is never empty; a
 *   segment has no trailer.
 *   The most runs      32-bit words    64-bit words
 *     for a whole job     352,261         176,132      header and trailer of 65,536 bytes, body of 16,777,216
 *     for a segment         2,735           1,369      note of 65,520 bytes, body of 65,536
 *
 * SEGMENTS
 *   A long job can be cut into segments, so that a tool is served before all of the job is there. Each segment is sealed
 *   and opened by itself, and its message is handed out only after its tag: what was handed out is good, whatever comes
 *   later. But a job is whole only after the segment that is flagged last.
 *     not last     65,536 bytes, exactly
 *     last         1 to 65,536 bytes; an empty job has one segment, of 0 bytes, index 0, flagged last
 *     index        from 0, at most 1,048,575, which must be flagged last: a job has at most 1,048,576 segments
 *     note         0 to 65,520 bytes, bound to each segment and not encrypted
 *     out          exactly body_len + tag in sealing, sealed_len - tag in opening
 *   Of last and complete 0 is no, and every other number yes.
 *   Each call is given the job's key, job nonce, number, revision and note, the same for every segment of the job; the
 *   note must be that of the job, and is no part of the sealed text.
 *   A segment is what norx_seal makes of its body with no trailer and
 *     the header   the job number, the revision and the note, as a session has them (below)
 *     the nonce    the job nonce, and then eight bytes, little-endian, of 2 * index + (1 if last)
 *   So no two segments of a job have one nonce. Use a job nonce for one job only, and another for another revision of
 *   it; and where the key seals whole jobs too, with norx_seal, let none of their nonces begin with a job nonce.
 *   The library keeps nothing between calls, so the host that opens keeps two things of a job: the index that it waits
 *   for, 0 at first, and whether the job is complete, at first no. It gives both to norx_segment_open, and
 *     on 0                  adds 1 to the index; and if that segment was flagged last, the job is complete
 *     on any other answer   keeps both as they were, and waits for the same index again
 *   A segment that is offered as of another index, flag, job, revision or note is answered 13 where its length is wrong
 *   for that index and flag, and else 10: a lie about the flag, which goes beside the sealed text, is seen by the tag.
 *   A host may also open segments out of order or on several threads, for none needs another. It must then see to it by
 *   itself that it has each index once, from 0 to the one flagged last, before it calls the job complete.
 *
 * LISTS
 *   A list says as plain text which segments a job has, so that people can read it, and programs can read it back. Each
 *   segment has a line, and there is no heading. The list of job 7, revision 3, of 65,636 bytes is
 *     7<tab>3<tab>0<tab>65536
 *     7<tab>3<tab>1<tab>100
 *   Numbers are decimal, without signs and without leading zeros; one tab, byte 9, stands between two of them, and every
 *   line ends in one newline, byte 10, the last line too. A line has
 *     job, revision   0 to 18,446,744,073,709,551,615 each, the same in every line
 *     index           0 in the first line, and in each line one more than in the line before
 *     length          the bytes of the segment's body: 65,536, and in the last line 1 to 65,536; the list of an empty
 *                     job is one line, with length 0
 *   A list has at most 1,048,576 lines, so its job at most 68,719,476,736 bytes, and the list at most 57,609,146.
 *   out of norx_list_write has exactly norx_list_length bytes.
 *   norx_list_read takes exactly the texts that norx_list_write can write, and gives their numbers. Of any other text it
 *   says the first bad line: the lowest number n, from 1, for which the first n lines are not a list by themselves. So
 *     an empty text is bad at line 1;
 *     a last line that has no newline is bad;
 *     a line behind one of less than 65,536 bytes is bad, and not that one, which could have been the last;
 *     a line behind 1,048,576 good ones is bad.
 *   The first lines of a list are a list, of a shorter job: a list does not show that it is whole.
 *
 * SESSIONS
 *   Sealing and checking piece by piece is there for Rattle programs, and not for C. norx_seal and norx_open take their
 *   header as it is given, and know no job and no revision. A session is for one job and one revision of it, and may
 *   have a note; its header is
 *     the job number   eight bytes, little-endian
 *     the revision     eight bytes, little-endian
 *     the note         0 to 65,520 bytes
 *   What norx_seal seals with that header passes the check of such a session: its pieces are the note, the ciphertext
 *   and the trailer, and its tag the last bytes of the sealed text. And what such a session sealed, ciphertext and then
 *   tag, norx_open opens with that header. README.md has the header as a C function, which the tests compile and run.
 *   norx_segment_seal and norx_segment_open make this header by themselves.
 *
 * BUFFERS
 *   A pointer belongs to the length behind it, and must be good for that many bytes; null is for length 0 alone,
 *   and is then an empty text, out included. A pointer that is not good is not refused: no library can see it.
 *   out must not overlap any other buffer; the others may overlap each other, and none of them is written.
 *   While norx_open or norx_segment_open runs, out may hold bytes whose tag is not checked yet: let nobody read it
 *   before the answer.
 *   No call keeps anything between calls, or allocates; any number of threads may call at once, each with its own out.
 *
 * NAMES
 *   What the linker sees begins with norx_, so that a call named open does not take the C library's place. What the
 *   preprocessor sees begins with JECZMILOT_: other implementations of NORX define NORX_.., and a file may include both.
 *
 * WHAT IT DOES NOT DO
 *   Whoever uses one nonce twice under one key loses secrecy: choose a nonce, or a job nonce, that was never used with
 *   that key. An old text, given again whole, still opens. Tags are compared to the last byte, but nothing is promised
 *   against an attacker who measures time. Keys are not stored, and not erased from memory. A list is not sealed:
 *   whoever can write to it can make another list of it.
 */
#ifndef JECZMILOT_H
#define JECZMILOT_H

#include <stddef.h>
#include <stdint.h>

#ifdef __cplusplus
extern "C" {
#endif

#define JECZMILOT_VERSION "0.6"

/* The answers. */
#define JECZMILOT_DONE 0
#define JECZMILOT_BAD_KEY_LENGTH 1 /* of the key, of the nonce or of the job nonce */
#define JECZMILOT_BAD_ROUNDS 2
#define JECZMILOT_BAD_TAG_LENGTH 3 /* the sealed text has no room for a tag */
#define JECZMILOT_OVER_LIMIT 4
#define JECZMILOT_BAD_OUT_LENGTH 5
#define JECZMILOT_TAG_DIFFERS 10
#define JECZMILOT_BAD_WIDTH 11
#define JECZMILOT_BAD_SEGMENT_LENGTH 13 /* or the segment's index is too high */
#define JECZMILOT_AFTER_LAST 14

/* The bytes of a key, of a nonce, of a tag and of a job nonce, at each width. */
#define JECZMILOT_KEY_BYTES_32 16
#define JECZMILOT_KEY_BYTES_64 32
#define JECZMILOT_NONCE_BYTES_32 16
#define JECZMILOT_NONCE_BYTES_64 32
#define JECZMILOT_TAG_BYTES_32 16
#define JECZMILOT_TAG_BYTES_64 32
#define JECZMILOT_JOB_NONCE_BYTES_32 8
#define JECZMILOT_JOB_NONCE_BYTES_64 24

/* The most bytes of a header, a body and a trailer. */
#define JECZMILOT_HEADER_LIMIT 65536
#define JECZMILOT_BODY_LIMIT 16777216
#define JECZMILOT_TRAILER_LIMIT 65536

/* In the header of a session or a segment: the bytes of job number and revision, and the most bytes of the note. */
#define JECZMILOT_FRONT_BYTES 16
#define JECZMILOT_NOTE_LIMIT 65520

/* The bytes of every segment but the last, which has at most as many; and the most segments of a job. */
#define JECZMILOT_SEGMENT_BYTES 65536
#define JECZMILOT_SEGMENTS_LIMIT 1048576

/* The most runs of P in one call on a whole job, and on a segment, at each width. */
#define JECZMILOT_RUNS_LIMIT_32 352261
#define JECZMILOT_RUNS_LIMIT_64 176132
#define JECZMILOT_SEGMENT_RUNS_LIMIT_32 2735
#define JECZMILOT_SEGMENT_RUNS_LIMIT_64 1369

/* The most bytes of a body that has a list, and of a list. */
#define JECZMILOT_LIST_BODY_LIMIT UINT64_C(68719476736)
#define JECZMILOT_LIST_LIMIT 57609146

/* Has the compiler warn where an answer is not looked at; empty where it cannot, or where it was defined so before. */
#ifndef JECZMILOT_LOOK_AT_THE_ANSWER
#if defined(__GNUC__)
#define JECZMILOT_LOOK_AT_THE_ANSWER __attribute__((warn_unused_result))
#else
#define JECZMILOT_LOOK_AT_THE_ANSWER
#endif
#endif

/* What a call on a whole job or on a segment gives. */
struct norx_outcome {
    uint32_t answer; /* look at it first */
    uint32_t runs;   /* how many times P ran; 0 where the answer is neither 0 nor 10 */
};

/* Seals a body under a key and a nonce, bound to a header and a trailer that are not encrypted.
 * On 0 out holds ciphertext and tag; on any other answer it is unchanged. Answers 0, 11, 2, 1, 4 or 5. */
JECZMILOT_LOOK_AT_THE_ANSWER
struct norx_outcome norx_seal(uint32_t width, uint32_t rounds,
                              const uint8_t *key, size_t key_len,
                              const uint8_t *nonce, size_t nonce_len,
                              const uint8_t *header, size_t header_len,
                              const uint8_t *body, size_t body_len,
                              const uint8_t *trailer, size_t trailer_len,
                              uint8_t *out, size_t out_len);

/* Opens a sealed text under the key, nonce, header and trailer that it was sealed with.
 * On 0 out holds the message, the one that seals to this text. On 10 there is no such message, and every byte of out
 * is zero. On any other answer out is unchanged. Answers 0, 11, 2, 1, 3, 4, 5 or 10. */
JECZMILOT_LOOK_AT_THE_ANSWER
struct norx_outcome norx_open(uint32_t width, uint32_t rounds,
                              const uint8_t *key, size_t key_len,
                              const uint8_t *nonce, size_t nonce_len,
                              const uint8_t *header, size_t header_len,
                              const uint8_t *sealed, size_t sealed_len,
                              const uint8_t *trailer, size_t trailer_len,
                              uint8_t *out, size_t out_len);

/* Seals one segment of a job; nonce is the job nonce, and last says whether it is the job's last segment.
 * On 0 out holds ciphertext and tag; on any other answer it is unchanged. Answers 0, 11, 13, 2, 1, 4 or 5. */
JECZMILOT_LOOK_AT_THE_ANSWER
struct norx_outcome norx_segment_seal(uint32_t width, uint32_t rounds,
                                      const uint8_t *key, size_t key_len,
                                      const uint8_t *nonce, size_t nonce_len,
                                      uint64_t job, uint64_t revision,
                                      const uint8_t *note, size_t note_len,
                                      uint64_t index, uint32_t last,
                                      const uint8_t *body, size_t body_len,
                                      uint8_t *out, size_t out_len);

/* Opens the segment that the host waits for: index is how many it has accepted, complete whether the last is among
 * them, and last whether this one came flagged last.
 * On 0 out holds the segment's message: hand it out, add 1 to the index, and the job is complete if last is not 0.
 * On 10 no message seals to this text for that index and flag, and every byte of out is zero. On any other answer out is
 * unchanged. On 10 and the others keep index and complete as they were. Answers 0, 11, 14, 13, 2, 1, 4, 5 or 10. */
JECZMILOT_LOOK_AT_THE_ANSWER
struct norx_outcome norx_segment_open(uint32_t width, uint32_t rounds,
                                      const uint8_t *key, size_t key_len,
                                      const uint8_t *nonce, size_t nonce_len,
                                      uint64_t job, uint64_t revision,
                                      const uint8_t *note, size_t note_len,
                                      uint64_t index, uint32_t complete, uint32_t last,
                                      const uint8_t *sealed, size_t sealed_len,
                                      uint8_t *out, size_t out_len);

/* The exact length of the list of a job whose body has length bytes; 0 where that is over its limit, for then it has no
 * list. */
size_t norx_list_length(uint64_t job, uint64_t revision, uint64_t length);

/* Writes the list of a job whose body has length bytes.
 * On 0 out holds the list; on any other answer it is unchanged. Answers 0, 4 or 5. */
JECZMILOT_LOOK_AT_THE_ANSWER
uint32_t norx_list_write(uint64_t job, uint64_t revision, uint64_t length, uint8_t *out, size_t out_len);

/* What a list says. Look at bad first: where it is not 0 the text is no list, and the other four are 0. */
struct norx_list {
    uint64_t bad;      /* the number, from 1, of the first bad line; 0 where there is none */
    uint64_t job;      /* the one that every line has */
    uint64_t revision; /* the one that every line has */
    uint64_t segments; /* how many lines there are */
    uint64_t length;   /* the bytes of the whole body */
};

/* Reads a list. Where bad is 0, norx_list_write writes this text for the job, revision and length that are given back;
 * where it is not, there are none for which it would. */
JECZMILOT_LOOK_AT_THE_ANSWER
struct norx_list norx_list_read(const uint8_t *text, size_t text_len);

#ifdef __cplusplus
}
#endif

#endif
