/* guard.h: buffers with a page before and a page behind that must not be
 * touched.  A buffer of any length stands either right behind the first page
 * or right before the last one; the bytes of the room that are not the
 * buffer's hold a pattern. */
#ifndef GUARD_H
#define GUARD_H

#include <stdbool.h>
#include <stddef.h>
#include <stdint.h>

struct guard {
    uint8_t *room;
    size_t size; /* whole pages */
    uint8_t *buffer;
    size_t length;
};

/* Makes a room for buffers of at most so many bytes. */
void guard_make(struct guard *g, size_t most);

/* Gives the room a buffer of this length, at its end or at its front, and
 * fills all of it with the pattern. */
uint8_t *guard_place(struct guard *g, size_t length, bool at_end);

/* Whether the bytes outside the buffer hold the pattern still. */
bool guard_holds(const struct guard *g);

/* Where a buffer of this length would stand; nothing is filled. */
uint8_t *guard_side(const struct guard *g, size_t length, bool at_end);

/* The pattern at a place of the buffer (0 is its first byte). */
uint8_t guard_pattern(size_t place);

#endif
