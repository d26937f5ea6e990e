/* random.c: numbers that follow from a seed (xorshift64*). */
#include "random.h"

static uint64_t last = 1;

void random_seed(uint64_t seed)
{
    last = seed * 0x9E3779B97F4A7C15u + 1;
    if (last == 0)
        last = 1;
    random_next();
}

uint64_t random_next(void)
{
    last ^= last >> 12;
    last ^= last << 25;
    last ^= last >> 27;
    return last * 0x2545F4914F6CDD1Du;
}

unsigned below(unsigned limit)
{
    return (unsigned)((random_next() >> 32) * limit >> 32);
}

bool once_in(unsigned times)
{
    return below(times) == 0;
}

unsigned one_of(const unsigned *list, size_t count)
{
    return list[below((unsigned)count)];
}

void random_bytes(uint8_t *bytes, size_t count)
{
    while (count-- > 0)
        *bytes++ = (uint8_t)(random_next() >> 40);
}
