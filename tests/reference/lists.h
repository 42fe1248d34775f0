#ifndef REFERENCE_LISTS_H
#define REFERENCE_LISTS_H

#include <stddef.h>
#include <stdint.h>

/* The numbers of the library's struct norx_list. */
struct reference_list {
    uint64_t bad, job, revision, segments, length;
};

/* They give what the library's norx_list_length, norx_list_write and norx_list_read give. */

size_t reference_list_length(uint64_t job, uint64_t revision, uint64_t length);

uint32_t reference_list_write(uint64_t job, uint64_t revision, uint64_t length, uint8_t *out, size_t out_len);

struct reference_list reference_list_read(const uint8_t *text, size_t text_len);

#endif
