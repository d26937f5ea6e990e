/* random.h: numbers that follow from a seed, the same on every machine.
 *
 * Each call draws, so an expression holds one of them at most: of two, C
 * leaves open which is drawn first, and the same seed would play other
 * sequences with another compiler. */
#ifndef RANDOM_H
#define RANDOM_H

#include <stdbool.h>
#include <stddef.h>
#include <stdint.h>

void random_seed(uint64_t seed);
uint64_t random_next(void);
unsigned below(unsigned limit);              /* 0 to limit - 1 */
bool once_in(unsigned times);                /* true once in so many times */
unsigned one_of(const unsigned *list, size_t count);
void random_bytes(uint8_t *bytes, size_t count);

#define ONE_OF(list) one_of(list, sizeof list / sizeof *list)

#endif
