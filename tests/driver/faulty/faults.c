/* Faults that the comparison must find: linked with --wrap around the five calls,
   the library does one wrong thing, that of number FAULT in the script faults, or
   nothing wrong for 0. */

#include "bringup.h"

#include <stdlib.h>
#include <string.h>

extern __typeof__(bringup_check) __real_bringup_check;
extern __typeof__(bringup_run) __real_bringup_run;
extern __typeof__(bringup_compile) __real_bringup_compile;
extern __typeof__(bringup_judge) __real_bringup_judge;
extern __typeof__(bringup_plan) __real_bringup_plan;

/* Where bytes read for nothing go, so that they are read. */
static volatile uint8_t sink;

/* Whether the answer slice has room for number i. */
static int told(size_t answer_len, size_t i)
{
    return answer_len >= 4 * (i + 1);
}

static uint32_t number(const uint8_t *answer, size_t i)
{
    const uint8_t *at = answer + 4 * i;
    return at[0] | (uint32_t)at[1] << 8 | (uint32_t)at[2] << 16 | (uint32_t)at[3] << 24;
}

static void set_number(uint8_t *answer, size_t answer_len, size_t i, uint32_t value)
{
    for (size_t k = 0; k < 4 && told(answer_len, i); k++)
        answer[4 * i + k] = (uint8_t)(value >> 8 * k);
}

uint32_t __wrap_bringup_check(const uint8_t *sheet, size_t sheet_len,
                              uint8_t *answer, size_t answer_len)
{
    uint32_t code = __real_bringup_check(sheet, sheet_len, answer, answer_len);
    if (FAULT == 1)
        sink = sheet[sheet_len];
    if (FAULT == 11 && code == BRINGUP_ANSWERED && told(answer_len, 1)
        && number(answer, 1) == 1u << sheet[sheet_len - 16])
        set_number(answer, answer_len, 1, number(answer, 1) - 1);
    return code;
}

uint32_t __wrap_bringup_run(const uint8_t *sheet, size_t sheet_len, uint32_t state,
                            const uint8_t *schedule, size_t schedule_len,
                            uint8_t *answer, size_t answer_len)
{
    uint8_t found[4] = {0};
    if (FAULT == 15 && answer_len == 8)
        memcpy(found, answer + 4, 4);
    uint32_t code = __real_bringup_run(sheet, sheet_len, state, schedule, schedule_len,
                                       answer, answer_len);
    if (FAULT == 3)
        answer[answer_len] ^= 1;
    if (FAULT == 15 && answer_len == 8)
        memcpy(answer + 4, found, 4);
    if (FAULT == 18)
        sink = schedule[-1];
    return code;
}

/* Puts rows back as they were found. */
static void restore(uint8_t *rows, uint8_t *found, size_t from, size_t rows_len)
{
    if (from < rows_len)
        memcpy(rows + from, found + from, rows_len - from);
}

uint32_t __wrap_bringup_compile(const uint8_t *sheet, size_t sheet_len,
                                uint32_t horizon, uint32_t limit,
                                uint8_t *rows, size_t rows_len,
                                uint8_t *answer, size_t answer_len)
{
    uint8_t *found = malloc(rows_len + 1);
    memcpy(found, rows, rows_len);
    uint32_t code = __real_bringup_compile(sheet, sheet_len, horizon, limit,
                                           rows, rows_len, answer, answer_len);
    int good = code == BRINGUP_ANSWERED;
    if (FAULT == 4)
        rows[-1] ^= 1;
    if (FAULT == 6 && good && told(answer_len, 2))
        set_number(answer, answer_len, 2, number(answer, 2) + 1);
    if (FAULT == 10 && code == BRINGUP_NO_ROOM)
        restore(rows, found, 0, rows_len);
    if (FAULT == 13 && good && told(answer_len, 4) && number(answer, 4) == 0)
        set_number(answer, answer_len, 4, 1);
    if (FAULT == 19 && good && told(answer_len, 3))
        restore(rows, found, 16 * ((size_t)number(answer, 3) + 1), rows_len);
    if (FAULT == 20 && good && told(answer_len, 2) && number(answer, 2) == limit)
        code = BRINGUP_EFFORT;
    free(found);
    return code;
}

uint32_t __wrap_bringup_judge(const uint8_t *sheet, size_t sheet_len,
                              uint32_t horizon, const uint8_t *rows, size_t rows_len,
                              uint32_t count, uint32_t root, uint32_t state,
                              const uint8_t *masks, size_t masks_len,
                              uint8_t *answer, size_t answer_len)
{
    uint32_t code = __real_bringup_judge(sheet, sheet_len, horizon, rows, rows_len,
                                         count, root, state, masks, masks_len,
                                         answer, answer_len);
    if (FAULT == 2)
        sink = masks[-1];
    if (FAULT == 9 && code == BRINGUP_ANSWERED && state % 2 == 1 && horizon == 2
        && told(answer_len, 1))
        set_number(answer, answer_len, 1, !number(answer, 1));
    if (FAULT == 17 && rows_len)
        ((uint8_t *)rows)[rows_len - 1] ^= 1;
    return code;
}

/* The lent slices of a plan that has its circuit. */
struct planned {
    const uint8_t *sheet;
    size_t sheet_len;
    const uint8_t *rows;
    size_t rows_len;
    const uint8_t *answer;
};

/* Whether the circuit is true of the schedule from the state. */
static uint32_t judged(const struct planned *p, uint32_t state, const uint8_t *schedule)
{
    uint8_t masks[16] = {0}, answer[8];
    uint32_t horizon = number(p->answer, 1);
    for (uint32_t i = 0; i < horizon; i++) {
        uint32_t mask = schedule[i] ? 1u << (schedule[i] - 1) : 0;
        masks[2 * i] = (uint8_t)mask;
        masks[2 * i + 1] = (uint8_t)(mask >> 8);
    }
    __real_bringup_judge(p->sheet, p->sheet_len, horizon, p->rows, p->rows_len,
                         number(p->answer, 3), number(p->answer, 4), state,
                         masks, 2 * horizon, answer, sizeof answer);
    return number(answer, 1);
}

/* Whether another schedule is good from the same states as the plan. */
static int as_good(const struct planned *p, const uint8_t *plan, const uint8_t *other)
{
    for (uint32_t state = 0; state < 1u << p->sheet[p->sheet_len - 16]; state++)
        if (judged(p, state, plan) != judged(p, state, other))
            return 0;
    return 1;
}

/* Makes the last entry that can be greater so, if some plan is as good then. */
static void not_first(const struct planned *p, uint8_t *schedule)
{
    uint8_t other[8];
    uint32_t horizon = number(p->answer, 1);
    for (uint32_t at = horizon; at-- > 0;) {
        memcpy(other, schedule, horizon);
        while (other[at] < p->sheet[p->sheet_len - 14]) {
            other[at]++;
            if (as_good(p, schedule, other)) {
                memcpy(schedule, other, horizon);
                return;
            }
        }
    }
}

uint32_t __wrap_bringup_plan(const uint8_t *sheet, size_t sheet_len, uint32_t limit,
                             uint8_t *rows, size_t rows_len,
                             uint8_t *schedule, size_t schedule_len,
                             uint8_t *answer, size_t answer_len)
{
    uint8_t unused[8];
    struct planned p = {sheet, sheet_len, rows, rows_len, answer};
    uint32_t code = __real_bringup_plan(sheet, sheet_len, limit, rows, rows_len,
                                        schedule, schedule_len, answer, answer_len);
    int good = code == BRINGUP_ANSWERED;
    if (FAULT == 5 && (good || code == BRINGUP_NO_PLAN))
        memset(rows + rows_len / 16 * 16, 0, rows_len % 16);
    if (FAULT == 7 && code == BRINGUP_NO_PLAN && schedule_len)
        schedule[0] = 0;
    if (FAULT == 8 && code == BRINGUP_BAD_ROW && told(answer_len, 0))
        set_number(answer, answer_len, 0, number(answer, 0) + 2);
    if (FAULT == 12 && good && told(answer_len, 4))
        not_first(&p, schedule);
    if (FAULT == 14 && code == BRINGUP_SHORT_SCHEDULE
        && __real_bringup_check(sheet, sheet_len, unused, 8) == BRINGUP_NO_START)
        code = BRINGUP_NO_START;
    if (FAULT == 16 && good && told(answer_len, 1) && schedule_len > number(answer, 1))
        schedule[number(answer, 1)] = 0;
    return code;
}
