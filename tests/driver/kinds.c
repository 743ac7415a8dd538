#include "kinds.h"

#include "damage.h"
#include "drafts.h"
#include "known.h"
#include "lent.h"
#include "random.h"
#include "tables.h"

#include <string.h>

/* Run calls: states, lengths and entries mostly good. */
static void some_run(const struct text *t, const struct draft *d)
{
    uint8_t schedule[40];
    size_t len = chance(90) ? below(9) : below(sizeof schedule);
    uint32_t state = below(1u << (d->facts <= 12 ? d->facts : 12));
    for (size_t i = 0; i < len; i++)
        schedule[i] = (uint8_t)below(d->actions + 1);
    if (chance(5))
        state |= 1u << between(d->facts, 31);
    uint32_t past = chance(50) ? d->actions + 1 : between(d->actions + 1, 255);
    if (len && chance(5))
        schedule[below((uint32_t)len)] = (uint8_t)past;
    both_run(t, state, schedule, len, NULL);
}

/* Check and run on well-formed sheets of all sizes. */
void kind_check_run(void)
{
    struct draft d;
    struct text t;
    random_draft(&d, (enum size)below(SIZES));
    encode(&d, &t);
    both_check(&t);
    for (int i = 0; i < 6; i++)
        some_run(&t, &d);
}

/* Compile and judge on well-formed sheets, more often small ones. */
void kind_compile_judge(void)
{
    struct draft d;
    struct text t;
    make_text(&d, &t);
    compile_and_judge(&t, &d);
}

/* Judge on tables that no compile made, now and then as large as room. */
void kind_judge_tables(void)
{
    static uint8_t rows[(MAX_ROOM + 2) * ROW];
    struct draft d;
    struct text t;
    make_text(&d, &t);
    for (int i = 0; i < 4; i++) {
        struct judged j = {.horizon = below(9), .rows = rows};
        uint32_t count = chance(50) ? between(2, 12) : between(2, 200);
        if (below(2000) == 0)
            count = MAX_ROOM + below(3) - 1;
        random_table(rows, count, variables_of(&d, j.horizon));
        j.rows_len = (size_t)count * ROW;
        j.count = count;
        j.root = chance(70) ? count - 1 : below(count);
        judge_copy(&t, &d, &j, j.horizon, chance(40));
    }
}

/* Plan on sheets of which half were made to have plans. */
void kind_plan(void)
{
    struct draft d;
    struct text t;
    if (chance(50))
        reachable_draft(&d);
    else
        make_text(&d, &t);
    encode(&d, &t);
    plan_some(&t, &d, probe_limit(variables_of(&d, d.horizon)));
}

/* All operations on sheets that look like devices. */
void kind_realistic(void)
{
    struct draft d;
    struct text t;
    realistic_draft(&d);
    encode(&d, &t);
    both_check(&t);
    for (int i = 0; i < 4; i++)
        some_run(&t, &d);
    compile_and_judge(&t, &d);
    if (chance(50))
        plan_some(&t, &d, 4000);
}

/* Bytes that need not be a sheet through all five, with other arguments good or bad. */
static void all_operations(const struct text *t, const struct draft *d)
{
    static uint8_t rows[200 * ROW];
    struct judged j = {.horizon = below(10), .rows = rows};
    uint32_t limit = chance(50) ? below(40) : 0;
    uint32_t horizon = chance(80) ? below(3) : below(12);
    size_t schedule_len = chance(70) ? 12 : below(13);
    both_check(t);
    some_run(t, d);
    both_compile(t, horizon, limit, below(2000), NULL);
    both_plan(t, limit, below(2000), schedule_len, NULL);
    j.count = between(2, 30);
    j.rows_len = j.count * ROW;
    j.root = j.count - 1;
    random_table(rows, j.count, variables_of(d, j.horizon % 9) + 1);
    j.state = below(1u << 12);
    some_masks(&j, d->actions);
    both_judge(t, &j);
}

/* Damaged sheets through all five, the other arguments for the whole sheet. */
void kind_damaged(void)
{
    struct draft d, whole;
    struct text t;
    make_text(&d, &t);
    whole = d;
    damage_sheet(&d, &t);
    all_operations(&t, &whole);
}

/* Bytes of any kind, or a good trailer behind them. */
void kind_noise(void)
{
    struct draft d;
    struct text t;
    memset(&d, 0, sizeof d);
    d.facts = between(1, 12);
    d.actions = between(1, 12);
    if (chance(50)) {
        some_counts(&d, (enum size)below(SIZES));
        encode(&d, &t);
        fill(t.byte, t.len - 16);
    } else {
        t.len = chance(50) ? below(40) : below(500);
        fill(t.byte, t.len);
        if (t.len >= 16 && chance(50))
            set_trailer(&t, 7, 0x5352);
    }
    all_operations(&t, &d);
}

/* Every value of one byte, the trailer's bytes more often. */
static void every_value(struct text *t, const struct draft *d)
{
    uint32_t len = (uint32_t)t->len;
    uint32_t at = chance(50) ? len - 1 - below(16) : below(len);
    uint8_t was = t->byte[at];
    for (uint32_t value = 0; value < 256; value++) {
        t->byte[at] = (uint8_t)value;
        both_check(t);
        if (value % 16 == was % 16)
            some_run(t, d);
    }
    t->byte[at] = was;
}

/* Every beginning and every end of the sheet. */
static void every_cut(const struct text *t)
{
    struct text cut;
    for (size_t len = 0; len <= t->len; len++) {
        cut.len = len;
        memcpy(cut.byte, t->byte, len);
        both_check(&cut);
        memcpy(cut.byte, t->byte + t->len - len, len);
        both_check(&cut);
    }
}

/* All changes of one byte and all cuts, through check. */
void kind_one_byte(void)
{
    struct draft d;
    struct text t;
    make_text(&d, &t);
    every_value(&t, &d);
    every_cut(&t);
}

/* Circuits of thousands of rows, and buffers past the most that room can be. */
void kind_large(void)
{
    struct draft d;
    struct text t;
    struct known k;
    if (chance(50))
        clause_draft(&d);
    else
        rule_draft(&d, between(5, 8));
    encode(&d, &t);
    probe(&t, between(0, 2), 1000, &k);
    compile_known(&t, &k, 1);
    if (k.code != 7) {
        size_t rows = chance(50) ? MAX_ROOM + 3 - below(5) : MORE_ROWS;
        both_compile(&t, k.horizon, k.effort, rows * ROW + below(16), NULL);
    }
    judge_known(&t, &d, &k, 2);
}

/* One circuit of more than 65,536 rows, lent enough buffer for all of them. */
void kind_cap(void)
{
    struct draft d;
    struct text t;
    struct known k;
    do {
        rule_draft(&d, 11);
        d.actions = 1;
        for (uint32_t i = 0; i < d.rules; i++)
            d.rule[i][0] = 1;
        encode(&d, &t);
        probe(&t, 2, 20000, &k);
    } while (k.code != 8);
    both_compile(&t, 2, k.effort, MORE_ROWS * ROW, NULL);
    both_compile(&t, 2, k.effort - 1, MORE_ROWS * ROW, NULL);
}
