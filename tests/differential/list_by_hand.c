/* Lists and refused texts that are written out here, by the document alone. */

#include <string.h>

#include "cases.h"
#include "families.h"
#include "list.h"

struct written_out {
    const char *name;
    struct listed listed;
    uint64_t segments;
    const char *text;
};

static const struct written_out lists[] = {
    {"of the document", {7, 3, 65636}, 2, "7\t3\t0\t65536\n7\t3\t1\t100\n"},
    {"of an empty job", {7, 3, 0}, 1, "7\t3\t0\t0\n"},
    {"of one byte", {0, 0, 1}, 1, "0\t0\t0\t1\n"},
    {"of a segment but one byte", {10, 9, 65535}, 1, "10\t9\t0\t65535\n"},
    {"of one segment", {7, 3, 65536}, 1, "7\t3\t0\t65536\n"},
    {"of one segment and a byte", {7, 3, 65537}, 2, "7\t3\t0\t65536\n7\t3\t1\t1\n"},
    {"of two segments", {7, 3, 131072}, 2, "7\t3\t0\t65536\n7\t3\t1\t65536\n"},
    {"of eleven segments",
     {1, 0, 665360},
     11,
     "1\t0\t0\t65536\n1\t0\t1\t65536\n1\t0\t2\t65536\n1\t0\t3\t65536\n1\t0\t4\t65536\n1\t0\t5\t65536\n"
     "1\t0\t6\t65536\n1\t0\t7\t65536\n1\t0\t8\t65536\n1\t0\t9\t65536\n1\t0\t10\t10000\n"},
    {"of the largest numbers", {UINT64_MAX, UINT64_MAX, 10}, 1, "18446744073709551615\t18446744073709551615\t0\t10\n"},
};

static void one_list(const struct written_out *list)
{
    const struct bytes text = {(const uint8_t *)list->text, strlen(list->text)};
    struct reference_list expected = {0, list->listed.job, list->listed.revision, list->segments, list->listed.length};
    struct bytes written;

    if (!case_begins("list by hand %s", list->name))
        return;
    compare_list_length(&list->listed, text.length);
    compare_list_write(&list->listed, text.length, DONE);
    written = written_list();
    if (written.length != text.length || memcmp(written.at, text.at, text.length) != 0)
        case_differs("list-write: the output is another than the one written by hand");
    compare_list_read(text, expected);
}

struct refused {
    const char *name;
    uint64_t bad;
    const char *text;
};

static const struct refused refused_texts[] = {
    {"empty", 1, ""},
    {"one newline", 1, "\n"},
    {"a heading", 1, "job\trevision\tindex\tlength\n7\t3\t0\t100\n"},
    {"an empty line in front", 1, "\n7\t3\t0\t100\n"},
    {"an empty line behind", 2, "7\t3\t0\t65536\n\n"},
    {"an empty line behind the last", 3, "7\t3\t0\t65536\n7\t3\t1\t100\n\n"},
    {"no last newline, one line", 1, "7\t3\t0\t100"},
    {"no last newline, two lines", 2, "7\t3\t0\t65536\n7\t3\t1\t100"},
    {"no last newline, full line", 2, "7\t3\t0\t65536\n7\t3\t1\t65536"},
    {"three fields", 1, "7\t3\t0\n"},
    {"five fields", 1, "7\t3\t0\t100\t\n"},
    {"five fields in the second line", 2, "7\t3\t0\t65536\n7\t3\t1\t100\t0\n"},
    {"a field over two lines", 2, "7\t3\t0\t655\n36\n"},
    {"no job", 1, "\t3\t0\t100\n"},
    {"no length", 1, "7\t3\t0\t\n"},
    {"two tabs", 1, "7\t3\t\t0\t100\n"},
    {"a tab in front", 1, "\t7\t3\t0\t100\n"},
    {"blanks for tabs", 1, "7 3 0 100\n"},
    {"a blank before the newline", 1, "7\t3\t0\t100 \n"},
    {"carriage returns", 1, "7\t3\t0\t65536\r\n7\t3\t1\t100\r\n"},
    {"a carriage return in the second line", 2, "7\t3\t0\t65536\n7\t3\t1\t100\r\n"},
    {"a leading zero in the job", 1, "07\t3\t0\t100\n"},
    {"a leading zero in the revision", 1, "7\t03\t0\t100\n"},
    {"a leading zero in the index", 1, "7\t3\t00\t100\n"},
    {"a leading zero in the length", 2, "7\t3\t0\t65536\n7\t3\t1\t0100\n"},
    {"a sign", 1, "+7\t3\t0\t100\n"},
    {"a negative zero", 1, "7\t3\t-0\t100\n"},
    {"a job of 2 to the 64", 1, "18446744073709551616\t3\t0\t100\n"},
    {"a job of 2 to the 64 and 7 behind 7", 2, "7\t3\t0\t65536\n18446744073709551623\t3\t1\t100\n"},
    {"a revision of 21 digits", 1, "7\t100000000000000000003\t0\t100\n"},
    {"an index from 1", 1, "7\t3\t1\t65536\n7\t3\t2\t100\n"},
    {"an index left out", 2, "7\t3\t0\t65536\n7\t3\t2\t100\n"},
    {"an index twice", 2, "7\t3\t0\t65536\n7\t3\t0\t65536\n"},
    {"another job", 2, "7\t3\t0\t65536\n8\t3\t1\t100\n"},
    {"another revision", 3, "7\t3\t0\t65536\n7\t3\t1\t65536\n7\t4\t2\t65536\n7\t3\t3\t100\n"},
    {"two lists", 3, "7\t3\t0\t65536\n7\t3\t1\t100\n7\t3\t0\t65536\n7\t3\t1\t100\n"},
    {"a line behind a short one", 2, "7\t3\t0\t100\n7\t3\t1\t65536\n"},
    {"a line behind a segment but one byte", 3, "7\t3\t0\t65536\n7\t3\t1\t65535\n7\t3\t2\t65536\n"},
    {"a line behind an empty job", 2, "7\t3\t0\t0\n7\t3\t1\t100\n"},
    {"an empty segment behind a full one", 2, "7\t3\t0\t65536\n7\t3\t1\t0\n"},
    {"a segment and a byte in one line", 1, "7\t3\t0\t65537\n"},
    {"a segment and a byte in the second line", 2, "7\t3\t0\t65536\n7\t3\t1\t65537\n"},
    {"a length of 2 to the 32 and 100", 1, "7\t3\t0\t4294967396\n"},
    {"a letter in the third line", 3, "7\t3\t0\t65536\n7\t3\t1\t65536\n7\t3\tx\t100\n"},
    {"bad in two lines", 2, "7\t3\t0\t65536\n7\t4\t1\t65536\n7\t3\t3\t100\n"},
};

static void one_refused(const struct refused *refused)
{
    const struct bytes text = {(const uint8_t *)refused->text, strlen(refused->text)};

    if (!case_begins("list by hand refused for %s", refused->name))
        return;
    compare_list_read(text, (struct reference_list){.bad = refused->bad});
}

void lists_by_hand(void)
{
    family_begins("lists by hand");
    for (size_t i = 0; i < sizeof lists / sizeof *lists; i++)
        one_list(&lists[i]);
    for (size_t i = 0; i < sizeof refused_texts / sizeof *refused_texts; i++)
        one_refused(&refused_texts[i]);
}
