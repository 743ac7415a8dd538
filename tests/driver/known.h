#ifndef KNOWN_H
#define KNOWN_H

#include "calls.h"

/* Calls with limits and rooms around what a circuit needs, as the reference knows it. */

/* A circuit known from the reference, with its numbers. */
struct known {
    uint32_t code, horizon, effort, rows, root, limit;
    uint8_t *table;
};

/* Compiles with the greatest room, on the reference alone. */
void probe(const struct text *t, uint32_t horizon, uint32_t limit, struct known *k);

/* An effort that keeps a call short, now and then a longer one. */
uint32_t probe_limit(uint32_t variables);

/* Compile at one horizon, with limits and rooms around what is needed. */
void compile_known(const struct text *t, const struct known *k, int times);

/* Judge calls on a compiled table, as made, cut, longer or damaged. */
void judge_known(const struct text *t, const struct draft *d,
                 const struct known *k, int times);

/* Compile and judge at one horizon of a well-formed sheet. */
void compile_and_judge(const struct text *t, const struct draft *d);

/* Plans of one sheet with limits and rooms around those of its horizons. */
void plan_some(const struct text *t, const struct draft *d, uint32_t limit);

#endif
