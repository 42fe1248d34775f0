/* Compares what is written with the model, line by line. */

#include "hold.h"

#include <stdio.h>
#include <stdlib.h>
#include <string.h>

enum { SHOWN = 600 };

static void show_line(const char *what, struct bytes line)
{
    printf("  %s (%zu bytes): ", what, line.length);
    for (size_t i = 0; i < line.length && i < SHOWN; i++)
        printf(line.at[i] >= ' ' && line.at[i] < 0x7f ? "%c" : "\\x%02x", line.at[i]);
    printf("%s\n", line.length > SHOWN ? " .." : "");
}

static void count(struct tally *tally, struct bytes written)
{
    bool is_bad = written.length > 0 && written.at[0] == 'b';
    bool is_answer = written.length > 0 && written.at[0] >= '0' && written.at[0] <= '9';

    tally->calls += is_bad || is_answer;
    tally->bad += is_bad;
    if (is_answer)
        tally->answers[strtoul((const char *)written.at, NULL, 10)]++;
}

bool hold_lines(const char *name, struct bytes calls, struct bytes written, struct tally *tally)
{
    static struct model model;

    model_start(&model);
    for (size_t number = 1; calls.length > 0; number++) {
        struct bytes call = next_line(&calls), line = written;
        bool is_whole = written.length > 0 && memchr(written.at, '\n', written.length) != NULL;

        if (is_whole)
            line = next_line(&written);
        model_answer(&model, call);
        if (!is_whole || !reply_fits(bytes_of(&model.reply), line)) {
            printf("DIFFERENCE in %s, line %zu\n", name, number);
            show_line("the call", call);
            show_line(is_whole ? "written" : "written, without an end", line);
            show_line("the model", bytes_of(&model.reply));
            return false;
        }
        count(tally, line);
    }
    if (written.length > 0) {
        printf("DIFFERENCE in %s: there is more behind the last line\n", name);
        show_line("written", written);
    }
    return written.length == 0;
}
