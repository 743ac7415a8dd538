#include "calls.h"

#include "bringup.h"
#include "lent.h"
#include "random.h"
#include "reference.h"
#include "report.h"
#include "trap.h"

#include <string.h>

void read_numbers(const uint8_t *at, size_t len, uint32_t *number)
{
    memset(number, 0, 5 * sizeof *number);
    for (size_t i = 0; i < 5 && 4 * (i + 1) <= len; i++)
        number[i] = at[4 * i] | (uint32_t)at[4 * i + 1] << 8
                  | (uint32_t)at[4 * i + 2] << 16 | (uint32_t)at[4 * i + 3] << 24;
}

/* Lends more than the whole answer, or any length if nobody wants to be told. */
static const struct lent *lend_answer(const struct told *told)
{
    return lend_output("answer", told || chance(60) ? 24 : between(0, 24));
}

static void tell(struct told *told, uint32_t code, const struct lent *answer)
{
    if (!told)
        return;
    memset(told, 0, sizeof *told);
    told->code = code;
    read_numbers(answer->ref, answer->len, told->number);
}

void both_check(const struct text *t)
{
    const struct lent *sheet = lend_input("sheet", t->byte, t->len);
    const struct lent *answer = lend_answer(NULL);
    describe(t->byte, t->len, "check");
    running = REFERENCE;
    uint32_t ref = ref_check(sheet->ref, t->len, answer->ref, answer->len);
    running = LIBRARY;
    uint32_t lib = bringup_check(sheet->lib, t->len, answer->lib, answer->len);
    running = DRIVER;
    settle(CHECK, lib, ref);
    take_back();
}

void both_run(const struct text *t, uint32_t state, const uint8_t *schedule,
              size_t len, struct told *told)
{
    const struct lent *sheet = lend_input("sheet", t->byte, t->len);
    const struct lent *entries = lend_input("schedule", schedule, len);
    const struct lent *answer = lend_answer(told);
    describe(t->byte, t->len, "run: state %u", state);
    running = REFERENCE;
    uint32_t ref = ref_run(sheet->ref, t->len, state, entries->ref, len,
                           answer->ref, answer->len);
    running = LIBRARY;
    uint32_t lib = bringup_run(sheet->lib, t->len, state, entries->lib, len,
                               answer->lib, answer->len);
    running = DRIVER;
    settle(RUN, lib, ref);
    tell(told, ref, answer);
    take_back();
}

void both_compile(const struct text *t, uint32_t horizon, uint32_t limit,
                  size_t rows_len, struct told *told)
{
    const struct lent *sheet = lend_input("sheet", t->byte, t->len);
    const struct lent *rows = lend_output("rows", rows_len);
    const struct lent *answer = lend_answer(told);
    describe(t->byte, t->len, "compile: horizon %u limit %u rows_len %zu",
             horizon, limit, rows_len);
    running = REFERENCE;
    uint32_t ref = ref_compile(sheet->ref, t->len, horizon, limit,
                               rows->ref, rows_len, answer->ref, answer->len);
    running = LIBRARY;
    uint32_t lib = bringup_compile(sheet->lib, t->len, horizon, limit,
                                   rows->lib, rows_len, answer->lib, answer->len);
    running = DRIVER;
    settle(COMPILE, lib, ref);
    tell(told, ref, answer);
    take_back();
}

void both_judge(const struct text *t, const struct judged *j)
{
    const struct lent *sheet = lend_input("sheet", t->byte, t->len);
    const struct lent *rows = lend_input("rows", j->rows, j->rows_len);
    const struct lent *masks = lend_input("masks", j->masks, j->masks_len);
    const struct lent *answer = lend_answer(NULL);
    describe(t->byte, t->len, "judge: horizon %u count %u root %u state %u",
             j->horizon, j->count, j->root, j->state);
    running = REFERENCE;
    uint32_t ref = ref_judge(sheet->ref, t->len, j->horizon, rows->ref, j->rows_len,
                             j->count, j->root, j->state, masks->ref, j->masks_len,
                             answer->ref, answer->len);
    running = LIBRARY;
    uint32_t lib = bringup_judge(sheet->lib, t->len, j->horizon, rows->lib,
                                 j->rows_len, j->count, j->root, j->state,
                                 masks->lib, j->masks_len, answer->lib, answer->len);
    running = DRIVER;
    settle(JUDGE, lib, ref);
    take_back();
}

/* How many starts a sheet has; 0 where it is refused. */
static uint32_t starts_of(const struct text *t)
{
    uint32_t number[5];
    uint8_t answer[8];
    running = REFERENCE;
    uint32_t code = ref_check(t->byte, t->len, answer, sizeof answer);
    running = DRIVER;
    read_numbers(answer, sizeof answer, number);
    return code ? 0 : number[1];
}

/* The reference steps sets of states, and where they hardly repeat it tries most
   schedules from every start; for its sake alone plans are skipped that could need
   more of these runs. */
static const double dearest_search = 2e9;

/* The longest horizon up to H at which trying every schedule is not too dear. */
static uint32_t cheap_horizon(const struct text *t, uint32_t starts)
{
    uint32_t entries = t->byte[t->len - 14] + 1u, last = t->byte[t->len - 6];
    uint32_t horizon = 0;
    for (double cost = starts; horizon < last; horizon++) {
        cost *= entries;
        if (cost > dearest_search)
            break;
    }
    return horizon;
}

/* Plans up to the cheap horizon alone: only if that ends with 9, and the next
   circuit can be made, would the whole call search beyond. */
int too_dear(const struct text *t, uint32_t limit, size_t rows_len,
             size_t schedule_len)
{
    static uint8_t spare[MAX_ROOM * ROW];
    uint8_t schedule[8], answer[20];
    uint32_t starts = starts_of(t);
    if (starts == 0 || schedule_len < t->byte[t->len - 6])
        return 0;
    uint32_t horizon = cheap_horizon(t, starts);
    if (horizon == t->byte[t->len - 6])
        return 0;
    struct text lower = *t;
    set_trailer(&lower, 5, horizon);
    if (rows_len > sizeof spare)
        rows_len = sizeof spare;
    running = REFERENCE;
    uint32_t code = ref_plan(lower.byte, lower.len, limit, spare, rows_len,
                             schedule, sizeof schedule, answer, sizeof answer);
    if (code == 9)
        code = ref_compile(t->byte, t->len, horizon + 1, limit, spare, rows_len,
                           answer, sizeof answer) ? 0 : 9;
    running = DRIVER;
    return code == 9;
}

/* Keeps the first steps of a schedule, as many as the plan has. */
static void tell_schedule(struct told *told, const struct lent *schedule)
{
    size_t len = told->number[1];
    if (told->code == 0 && len <= sizeof told->schedule && len <= schedule->len)
        memcpy(told->schedule, schedule->ref, len);
}

void both_plan(const struct text *t, uint32_t limit, size_t rows_len,
               size_t schedule_len, struct told *told)
{
    struct told whole;
    describe(t->byte, t->len, "plan: limit %u rows_len %zu schedule_len %zu",
             limit, rows_len, schedule_len);
    if (too_dear(t, limit, rows_len, schedule_len)) {
        kind->skipped++;
        return;
    }
    const struct lent *sheet = lend_input("sheet", t->byte, t->len);
    const struct lent *rows = lend_output("rows", rows_len);
    const struct lent *schedule = lend_output("schedule", schedule_len);
    const struct lent *answer = lend_answer(told);
    running = REFERENCE;
    uint32_t ref = ref_plan(sheet->ref, t->len, limit, rows->ref, rows_len,
                            schedule->ref, schedule_len, answer->ref, answer->len);
    running = LIBRARY;
    uint32_t lib = bringup_plan(sheet->lib, t->len, limit, rows->lib, rows_len,
                                schedule->lib, schedule_len, answer->lib, answer->len);
    running = DRIVER;
    settle(PLAN, lib, ref);
    tell(&whole, ref, answer);
    tell_schedule(&whole, schedule);
    if (ref == 0 && answer->len >= 8)
        count_length(whole.number[1]);
    if (told)
        *told = whole;
    take_back();
}
