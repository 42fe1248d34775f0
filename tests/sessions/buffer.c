/* Bytes that grow, from and to files. */

#include "buffer.h"

#include <stdarg.h>
#include <stdio.h>
#include <stdlib.h>
#include <string.h>

static void make_room(struct buffer *buffer, size_t more)
{
    size_t needed = buffer->length + more;

    if (needed <= buffer->room)
        return;
    buffer->room = needed < 64 ? 64 : 2 * needed;
    buffer->at = realloc(buffer->at, buffer->room);
    if (buffer->at == NULL) {
        fprintf(stderr, "no memory for %zu bytes\n", buffer->room);
        exit(2);
    }
}

void buffer_add(struct buffer *buffer, const void *bytes, size_t length)
{
    make_room(buffer, length);
    if (length > 0)
        memcpy(buffer->at + buffer->length, bytes, length);
    buffer->length += length;
}

void buffer_fill(struct buffer *buffer, uint8_t byte, size_t times)
{
    make_room(buffer, times);
    if (times > 0)
        memset(buffer->at + buffer->length, byte, times);
    buffer->length += times;
}

void buffer_print(struct buffer *buffer, const char *format, ...)
{
    char text[1024];
    va_list arguments;

    va_start(arguments, format);
    buffer_add(buffer, text, (size_t)vsnprintf(text, sizeof text, format, arguments));
    va_end(arguments);
}

void buffer_replace(struct buffer *buffer, size_t begin, size_t end, struct bytes by)
{
    size_t behind = buffer->length - end;

    make_room(buffer, by.length);
    memmove(buffer->at + begin + by.length, buffer->at + end, behind);
    if (by.length > 0)
        memcpy(buffer->at + begin, by.at, by.length);
    buffer->length = begin + by.length + behind;
}

void buffer_hex(struct buffer *buffer, struct bytes bytes)
{
    if (bytes.length == 0)
        buffer_add(buffer, "-", 1);
    make_room(buffer, 2 * bytes.length);
    for (size_t i = 0; i < bytes.length; i++) {
        buffer->at[buffer->length++] = (uint8_t)"0123456789abcdef"[bytes.at[i] >> 4];
        buffer->at[buffer->length++] = (uint8_t)"0123456789abcdef"[bytes.at[i] & 15];
    }
}

static FILE *open_file(const char *path, const char *mode)
{
    FILE *file = fopen(path, mode);

    if (file == NULL) {
        perror(path);
        exit(2);
    }
    return file;
}

void buffer_read(struct buffer *buffer, const char *path)
{
    FILE *file = open_file(path, "rb");
    uint8_t some[65536];
    size_t length;

    buffer->length = 0;
    while ((length = fread(some, 1, sizeof some, file)) > 0)
        buffer_add(buffer, some, length);
    fclose(file);
}

void buffer_write(const struct buffer *buffer, const char *path)
{
    FILE *file = open_file(path, "wb");

    if (fwrite(buffer->at, 1, buffer->length, file) != buffer->length || fclose(file) != 0) {
        perror(path);
        exit(2);
    }
}

struct bytes bytes_of(const struct buffer *buffer)
{
    return (struct bytes){buffer->at, buffer->length};
}
