#ifndef BUFFER_H
#define BUFFER_H

#include <stdbool.h>
#include <stddef.h>
#include <stdint.h>

struct bytes {
    const uint8_t *at;
    size_t length;
};

/* Bytes that grow; all zero is an empty buffer. */
struct buffer {
    uint8_t *at;
    size_t length, room;
};

void buffer_add(struct buffer *buffer, const void *bytes, size_t length);

void buffer_fill(struct buffer *buffer, uint8_t byte, size_t times);

void buffer_print(struct buffer *buffer, const char *format, ...) __attribute__((format(printf, 2, 3)));

/* Puts other bytes in place of those from begin to end; they are none of its own. */
void buffer_replace(struct buffer *buffer, size_t begin, size_t end, struct bytes by);

/* Lowercase hexadecimal digits, and - for no bytes. */
void buffer_hex(struct buffer *buffer, struct bytes bytes);

/* Has the whole file afterwards, or ends the program. */
void buffer_read(struct buffer *buffer, const char *path);

void buffer_write(const struct buffer *buffer, const char *path);

struct bytes bytes_of(const struct buffer *buffer);

#endif
