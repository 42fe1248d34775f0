/* One stretch of memory between two forbidden pages, made at its first use. */

#define _DEFAULT_SOURCE

#include "fenced.h"

#include <stdio.h>
#include <stdlib.h>
#include <string.h>
#include <sys/mman.h>
#include <unistd.h>

static const size_t room = (size_t)1 << 26;

static uint8_t *begin;

static void fence_off(void)
{
    size_t page = (size_t)sysconf(_SC_PAGESIZE);
    uint8_t *memory = mmap(NULL, room + 2 * page, PROT_NONE, MAP_PRIVATE | MAP_ANONYMOUS, -1, 0);

    if (memory == MAP_FAILED || mprotect(memory + page, room, PROT_READ | PROT_WRITE) != 0) {
        fprintf(stderr, "no memory for %zu bytes between two pages\n", room);
        exit(2);
    }
    begin = memory + page;
}

static const uint8_t *copy_to(size_t place, const uint8_t *from, size_t length)
{
    if (length > 0)
        memcpy(begin + place, from, length);
    return begin + place;
}

const uint8_t *fenced_behind(const uint8_t *from, size_t length)
{
    if (begin == NULL)
        fence_off();
    return copy_to(room - length, from, length);
}

const uint8_t *fenced_before(const uint8_t *from, size_t length)
{
    if (begin == NULL)
        fence_off();
    return copy_to(0, from, length);
}
