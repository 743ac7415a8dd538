#ifndef RANDOM_H
#define RANDOM_H

#include <stddef.h>
#include <stdint.h>

/* Random numbers for one case after another. No expression asks for two of them
   in an order that C leaves open, so cases are the same with every compiler. */

extern uint64_t random_seed;

/* Begins a case, whose numbers depend on seed, kind and case number alone. */
void seed_case(const char *kind, uint64_t number);

uint64_t rnd(void);
uint32_t below(uint32_t n);
uint32_t between(uint32_t low, uint32_t high);
int chance(uint32_t percent);
void fill(uint8_t *at, size_t len);

#endif
