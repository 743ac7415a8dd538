#ifndef CALLS_H
#define CALLS_H

#include "sheets.h"

/* One call on both sides each, which must come out alike. */

/* A whole answer for a caller who wants it, with the schedule of a plan. */
struct told {
    uint32_t code, number[5];
    uint8_t schedule[8];
};

struct judged {
    uint32_t horizon;
    const uint8_t *rows;
    size_t rows_len;
    uint32_t count, root, state;
    uint8_t masks[32];
    size_t masks_len;
};

/* The numbers of an answer, zeros where the slice was too short. */
void read_numbers(const uint8_t *at, size_t len, uint32_t *number);

/* Where told is NULL, the answer slice has any length. */
void both_check(const struct text *t);
void both_run(const struct text *t, uint32_t state, const uint8_t *schedule,
              size_t len, struct told *told);
void both_compile(const struct text *t, uint32_t horizon, uint32_t limit,
                  size_t rows_len, struct told *told);
void both_judge(const struct text *t, const struct judged *j);
void both_plan(const struct text *t, uint32_t limit, size_t rows_len,
               size_t schedule_len, struct told *told);

/* Whether a reference that tries every schedule would take too long to plan. */
int too_dear(const struct text *t, uint32_t limit, size_t rows_len,
             size_t schedule_len);

#endif
