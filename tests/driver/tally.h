#ifndef TALLY_H
#define TALLY_H

#include <stdint.h>

/* Kinds of input and what was counted for each. */

enum op { CHECK, RUN, COMPILE, JUDGE, PLAN, OPS };

enum { CODES = 12, LENGTHS = 9 };

/* A kind has its share of the time and what it had of it, over its share. */
struct kind {
    const char *name;
    int share;
    void (*one)(void);
    double had;
    uint64_t cases, calls, brute, skipped;
    uint64_t code[OPS][CODES], length[LENGTHS];
};

/* The kind whose case is running. */
extern struct kind *kind;

/* Calls of all kinds so far. */
extern uint64_t calls_made;

void count_call(enum op op, uint32_t code);
void count_length(uint32_t length);
void summarize(const struct kind *k);

/* Names each code that an operation may give and never gave; how many. */
int print_missing(const struct kind *kinds, int count);

#endif
