/* A segment is one sealing: its nonce and its header are written out here, byte by byte. */

#include "cases.h"
#include "families.h"
#include "segment.h"

enum { HEADER_LENGTH = 18, INDEX_BYTES = 8 };

struct written_out {
    const char *name;
    uint64_t index;
    uint32_t last;
    uint8_t end_of_nonce[INDEX_BYTES];
};

static const struct written_out segments[] = {
    {"0, not last", 0, 0, {0, 0, 0, 0, 0, 0, 0, 0}},
    {"0, last", 0, 1, {1, 0, 0, 0, 0, 0, 0, 0}},
    {"1, not last", 1, 0, {2, 0, 0, 0, 0, 0, 0, 0}},
    {"1, last", 1, 1, {3, 0, 0, 0, 0, 0, 0, 0}},
    {"128, not last", 128, 0, {0, 1, 0, 0, 0, 0, 0, 0}},
    {"66051, last", 66051, 1, {0x07, 0x04, 0x02, 0, 0, 0, 0, 0}},
    {"1048574, not last", 1048574, 0, {0xfc, 0xff, 0x1f, 0, 0, 0, 0, 0}},
    {"1048575, last", 1048575, 1, {0xff, 0xff, 0x1f, 0, 0, 0, 0, 0}},
};

/* Job 7, revision 258, and the note "ab". */
static const uint8_t header[HEADER_LENGTH] = {7, 0, 0, 0, 0, 0, 0, 0, 2, 1, 0, 0, 0, 0, 0, 0, 'a', 'b'};

static void one_segment(struct message *message, struct instance instance, const struct written_out *segment)
{
    size_t body_length = segment->last ? 100 : SEGMENT_BYTES;
    struct prng prng;
    struct call call;

    if (!case_begins("segment by hand %u %u %s", instance.width, instance.rounds, segment->name))
        return;
    prng = case_prng();
    message_draw(message, instance, (struct lengths){HEADER_LENGTH, body_length, 0}, &prng);
    memcpy(message->header, header, HEADER_LENGTH);
    memcpy(message->nonce + tag_length(instance) - INDEX_BYTES, segment->end_of_nonce, INDEX_BYTES);
    call = seal_call(message);
    compare_call(&call, DONE);
    take_output(message->sealed, sealed_length(message));

    message->place = (struct place){7, 258, segment->index, segment->last, 0};
    message->lengths.header = HEADER_LENGTH - 16;
    memcpy(message->header, header + 16, HEADER_LENGTH - 16);
    compare_segment_there_and_back(message);
}

void segments_by_hand(struct message *message)
{
    family_begins("segments by hand");
    for (int i = 0; i < INSTANCES; i++)
        for (size_t segment = 0; segment < sizeof segments / sizeof *segments; segment++)
            one_segment(message, instances[i], &segments[segment]);
}
