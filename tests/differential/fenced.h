#ifndef FENCED_H
#define FENCED_H

#include <stddef.h>
#include <stdint.h>

/* Copies of a text that touch a page which can be neither read nor written, so that a step too far ends the program.
   Both are good until the next copy is made. */

/* The page comes directly behind the last byte. */
const uint8_t *fenced_behind(const uint8_t *from, size_t length);

/* The page ends directly before the first byte. */
const uint8_t *fenced_before(const uint8_t *from, size_t length);

#endif
