#ifndef LENT_H
#define LENT_H

#include "tally.h"

#include <stddef.h>
#include <stdint.h>

/* The slices lent to one call, and what became of them. */

enum {
    ROW = 16,
    MAX_ROOM = 65536,   /* rows past these are not for the call */
    MORE_ROWS = 200000, /* of the longest buffer lent, well past the greatest room */
    MOST_LENT = 4       /* slices of one call */
};

/* One slice as each side is lent it, and as it was before. */
struct lent {
    const char *name;
    int written, at_end;
    size_t len;
    uint8_t *lib, *ref, *was, *base;
};

/* Maps the memory to lend from, once before all. */
void map_arenas(void);

/* Lends an input, which must not change; valid until take_back. */
const struct lent *lend_input(const char *name, const uint8_t *content, size_t len);

/* Lends a slice to be written, found full of random bytes; valid until take_back. */
const struct lent *lend_output(const char *name, size_t len);

/* Compares codes and all lent slices after both calls; the first is the sheet. */
void settle(enum op op, uint32_t lib, uint32_t ref);

void take_back(void);

/* Prints the inputs, and which byte of which lent slice is at an address. */
void print_near(const void *address);

#endif
