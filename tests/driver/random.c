#include "random.h"

#include <string.h>

uint64_t random_seed;

static uint64_t random_state;

/* The generator splitmix64. */
uint64_t rnd(void)
{
    uint64_t z = random_state += 0x9e3779b97f4a7c15u;
    z = (z ^ z >> 30) * 0xbf58476d1ce4e5b9u;
    z = (z ^ z >> 27) * 0x94d049bb133111ebu;
    return z ^ z >> 31;
}

void seed_case(const char *kind, uint64_t number)
{
    random_state = random_seed;
    for (const char *c = kind; *c; c++)
        random_state = rnd() + (uint64_t)*c;
    random_state = rnd() + number;
}

uint32_t below(uint32_t n)
{
    return n ? (uint32_t)(rnd() % n) : 0;
}

uint32_t between(uint32_t low, uint32_t high)
{
    return low + below(high - low + 1);
}

int chance(uint32_t percent)
{
    return below(100) < percent;
}

void fill(uint8_t *at, size_t len)
{
    for (; len >= 8; at += 8, len -= 8) {
        uint64_t z = rnd();
        memcpy(at, &z, 8);
    }
    while (len--)
        *at++ = (uint8_t)rnd();
}
