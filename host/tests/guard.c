/* guard.c: buffers between two pages that must not be touched. */
#define _DEFAULT_SOURCE
#include "guard.h"

#include <stdio.h>
#include <stdlib.h>
#include <sys/mman.h>
#include <unistd.h>

void guard_make(struct guard *g, size_t most)
{
    size_t page = (size_t)sysconf(_SC_PAGESIZE);
    uint8_t *all;

    g->size = (most + page) / page * page;
    all = mmap(NULL, g->size + 2 * page, PROT_NONE,
               MAP_PRIVATE | MAP_ANONYMOUS, -1, 0);
    if (all == MAP_FAILED ||
        mprotect(all + page, g->size, PROT_READ | PROT_WRITE) != 0) {
        perror("guard pages");
        exit(2);
    }
    g->room = all + page;
    guard_place(g, 0, true);
}

uint8_t guard_pattern(size_t place)
{
    return (uint8_t)(place * 89 + 0xE7);
}

uint8_t *guard_place(struct guard *g, size_t length, bool at_end)
{
    size_t i;

    g->length = length;
    g->buffer = guard_side(g, length, at_end);
    for (i = 0; i < g->size; i++)
        g->room[i] = guard_pattern((size_t)(g->room + i - g->buffer));
    return g->buffer;
}

static bool holds(const struct guard *g, const uint8_t *from,
                  const uint8_t *to)
{
    for (; from < to; from++)
        if (*from != guard_pattern((size_t)(from - g->buffer)))
            return false;
    return true;
}

bool guard_holds(const struct guard *g)
{
    return holds(g, g->room, g->buffer) &&
           holds(g, g->buffer + g->length, g->room + g->size);
}

uint8_t *guard_side(const struct guard *g, size_t length, bool at_end)
{
    return at_end ? g->room + g->size - length : g->room;
}
