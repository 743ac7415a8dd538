#ifndef TABLES_H
#define TABLES_H

#include "calls.h"

/* Tables and arguments for judge. */

/* A table of well-formed rows that no compile need have made. */
void random_table(uint8_t *rows, uint32_t count, uint32_t variables);

/* Masks for the steps of the horizon, mostly of one action or none. */
void some_masks(struct judged *j, uint32_t actions);

/* Judges a copy of the table so that damage does not stay. */
void judge_copy(const struct text *t, const struct draft *d, struct judged *j,
                uint32_t horizon, int damaged);

#endif
