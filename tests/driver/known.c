#include "known.h"

#include "lent.h"
#include "random.h"
#include "reference.h"
#include "report.h"
#include "tables.h"
#include "trap.h"

uint32_t probe_limit(uint32_t variables)
{
    uint32_t limit = variables <= 24 ? 2000 : variables <= 60 ? 400
                   : variables <= 150 ? 100 : 20;
    return chance(3) ? 10 * limit : limit;
}

/* Fills in the numbers of a probe made by compile or plan. */
static void keep(struct known *k, const uint8_t *answer, size_t len, uint8_t *table)
{
    uint32_t number[5];
    read_numbers(answer, len, number);
    k->horizon = number[1];
    k->effort = number[2];
    k->rows = number[3];
    k->root = number[4];
    k->table = table;
}

void probe(const struct text *t, uint32_t horizon, uint32_t limit, struct known *k)
{
    static uint8_t table[MAX_ROOM * ROW];
    uint8_t answer[20];
    describe(t->byte, t->len, "probe: horizon %u limit %u", horizon, limit);
    running = REFERENCE;
    k->code = ref_compile(t->byte, t->len, horizon, limit, table, sizeof table,
                          answer, sizeof answer);
    running = DRIVER;
    k->limit = limit;
    keep(k, answer, sizeof answer, table);
    k->horizon = horizon;
}

/* An effort limit near the effort, or any; never more work than the probe. */
static uint32_t some_limit(const struct known *k)
{
    if (k->code == 7)
        return chance(20) ? between(0, 1) : below(k->limit + 1);
    switch (below(8)) {
    case 0: return 0;
    case 1: return k->effort ? k->effort - 1 : 0;
    case 2: return below(k->effort + 1);
    case 3: return k->effort + 1;
    case 4: return UINT32_MAX;
    case 5: return (uint32_t)rnd();
    default: return k->effort;
    }
}

/* A row buffer's length: rows near those made, and a tail of 0..15 bytes. */
static size_t some_rows_len(const struct known *k)
{
    size_t rows, made = k->rows ? k->rows : below(2000);
    switch (below(10)) {
    case 0: rows = below(3); break;
    case 1: case 2: rows = made ? made - 1 : 0; break;
    case 3: rows = below((uint32_t)made + 1); break;
    case 4: rows = made + 1; break;
    case 5: rows = made + below(50); break;
    default: rows = made; break;
    }
    if (below(1000) == 0)
        rows = MAX_ROOM + between(0, 2) - 1;
    return rows * ROW + (chance(50) ? 0 : below(16));
}

static uint32_t some_horizon(const struct draft *d)
{
    if (chance(3))
        return chance(50) ? 9 : (uint32_t)rnd() | 16;
    return chance(50) ? below(d->horizon + 1) : chance(70) ? below(4) : below(9);
}

void compile_known(const struct text *t, const struct known *k, int times)
{
    while (times--) {
        uint32_t limit = some_limit(k);
        both_compile(t, k->horizon, limit, some_rows_len(k), NULL);
    }
}

void judge_known(const struct text *t, const struct draft *d,
                 const struct known *k, int times)
{
    uint32_t spare = MAX_ROOM - k->rows;
    if (k->code)
        return;
    while (times--) {
        struct judged j = {.horizon = k->horizon, .rows = k->table};
        uint32_t more = chance(30) ? below(spare < 6 ? spare : 6) : 0;
        j.rows_len = (size_t)(k->rows + more) * ROW;
        if (chance(20))
            j.rows_len += below(16);
        j.count = chance(85) ? k->rows : between(2, k->rows + more);
        j.root = k->root < j.count ? k->root : below(j.count);
        judge_copy(t, d, &j, k->horizon, chance(25));
    }
}

void compile_and_judge(const struct text *t, const struct draft *d)
{
    struct known k;
    uint32_t horizon = some_horizon(d);
    uint32_t limit = horizon > 8 ? 0 : probe_limit(variables_of(d, horizon));
    probe(t, horizon, limit, &k);
    compile_known(t, &k, 4);
    judge_known(t, d, &k, 6);
}

/* A probe of plan; one too dear is kept as one that ran out of effort at H. */
static void probe_plan(const struct text *t, uint32_t horizon, uint32_t limit,
                       struct known *k)
{
    static uint8_t table[MAX_ROOM * ROW];
    uint8_t answer[20], schedule[8];
    *k = (struct known){.code = 7, .horizon = horizon, .limit = limit};
    describe(t->byte, t->len, "probe of plan: limit %u", limit);
    if (too_dear(t, limit, sizeof table, sizeof schedule))
        return;
    running = REFERENCE;
    k->code = ref_plan(t->byte, t->len, limit, table, sizeof table,
                       schedule, sizeof schedule, answer, sizeof answer);
    running = DRIVER;
    keep(k, answer, sizeof answer, table);
}

/* The limit and the room are those of some horizon on the way, or of the last;
   a limit above the probe's is for plans that the probe ended without 7. */
static void plan_known(const struct text *t, const struct draft *d,
                       const struct known *k, int times)
{
    while (times--) {
        struct known on_way = *k;
        size_t len = chance(80) ? between(d->horizon, 12) : below(13);
        if (k->code != 6 && chance(50))
            probe(t, below(k->horizon + 1), k->limit, &on_way);
        uint32_t limit = some_limit(&on_way);
        if (k->code == 7 && limit > k->limit)
            limit = k->limit;
        both_plan(t, limit, some_rows_len(&on_way), len, NULL);
    }
}

void plan_some(const struct text *t, const struct draft *d, uint32_t limit)
{
    struct known k;
    probe_plan(t, d->horizon, limit, &k);
    size_t len = between(d->horizon, 12);
    if (k.code == 0 || k.code == 9)
        both_plan(t, k.limit, (size_t)k.rows * ROW + below(40), len, NULL);
    plan_known(t, d, &k, 2);
}
