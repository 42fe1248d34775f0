/* The published vectors, read from a file. */

#include <ctype.h>
#include <stdio.h>
#include <stdlib.h>
#include <string.h>

#include "cases.h"
#include "families.h"

enum { PUBLISHED = 4, PART = 128, LINE = 1024 };

struct vector {
    struct instance instance;
    char name[32];
    uint8_t sealed[PART + LONGEST_TAG];
};

static void refuse_file(const char *path, const char *why)
{
    fprintf(stderr, "%s: %s\n", path, why);
    exit(2);
}

static int digit(char c)
{
    static const char digits[] = "0123456789abcdef";
    const char *found = c != '\0' ? strchr(digits, tolower((unsigned char)c)) : NULL;

    return found != NULL ? (int)(found - digits) : -1;
}

/* Reads a line of a word and exactly so many bytes in hexadecimal. */
static bool read_bytes(const char *line, const char *word, uint8_t *bytes, size_t length)
{
    const char *hex = line + strlen(word) + 1;

    if (strncmp(line, word, strlen(word)) != 0 || line[strlen(word)] != ' ' || strlen(hex) != 2 * length)
        return false;
    for (size_t i = 0; i < length; i++) {
        int high = digit(hex[2 * i]), low = digit(hex[2 * i + 1]);

        if (high < 0 || low < 0)
            return false;
        bytes[i] = (uint8_t)(16 * high + low);
    }
    return true;
}

/* Gives the next line that is neither empty nor a comment, without its newline. */
static bool next_line(FILE *file, char line[LINE])
{
    while (fgets(line, LINE, file) != NULL) {
        line[strcspn(line, "\r\n")] = '\0';
        if (line[0] != '\0' && line[0] != '#')
            return true;
    }
    return false;
}

static bool read_vector(FILE *file, struct vector *vector)
{
    char line[LINE];

    if (!next_line(file, line) || strlen(line) >= sizeof vector->name)
        return false;
    strcpy(vector->name, line);
    if (sscanf(line, "NORX%u-%u-1", &vector->instance.width, &vector->instance.rounds) != 2)
        return false;
    if (vector->instance.width != 32 && vector->instance.width != 64)
        return false;
    return next_line(file, line) && read_bytes(line, "ciphertext", vector->sealed, PART) && next_line(file, line) &&
           read_bytes(line, "tag", vector->sealed + PART, tag_length(vector->instance));
}

static void read_vectors(const char *path, struct vector vectors[PUBLISHED])
{
    FILE *file = fopen(path, "r");
    char line[LINE];

    if (file == NULL)
        refuse_file(path, "can't be read");
    for (int i = 0; i < PUBLISHED; i++) {
        if (!read_vector(file, &vectors[i]))
            refuse_file(path, "one of the four vectors is missing or damaged");
        if (vectors[i].instance.width != instances[i].width || vectors[i].instance.rounds != instances[i].rounds)
            refuse_file(path, "the vectors are not in the order NORX32-4, NORX32-6, NORX64-4, NORX64-6");
    }
    if (next_line(file, line))
        refuse_file(path, "there is more than the four vectors");
    fclose(file);
}

static void count_up(uint8_t *bytes, size_t length, uint8_t from)
{
    for (size_t i = 0; i < length; i++)
        bytes[i] = (uint8_t)(from + i);
}

static void fill_published(struct message *message, const struct vector *vector)
{
    message->instance = vector->instance;
    message->lengths = (struct lengths){PART, PART, PART};
    count_up(message->key, tag_length(vector->instance), 0x00);
    count_up(message->nonce, tag_length(vector->instance), 0x20);
    count_up(message->header, PART, 0x00);
    count_up(message->body, PART, 0x00);
    count_up(message->trailer, PART, 0x00);
    memcpy(message->sealed, vector->sealed, sealed_length(message));
}

void published_vectors(struct message *message, const char *path)
{
    struct vector vectors[PUBLISHED];

    family_begins("vectors");
    read_vectors(path, vectors);
    for (int i = 0; i < PUBLISHED; i++) {
        fill_published(message, &vectors[i]);
        if (case_begins("vector %s seal", vectors[i].name)) {
            struct call call = seal_call(message);

            compare_call(&call, DONE);
            compare_output(message->sealed, sealed_length(message));
        }
        if (case_begins("vector %s open", vectors[i].name)) {
            struct call call = open_call(message);

            compare_call(&call, DONE);
            compare_output(message->body, PART);
        }
    }
}
