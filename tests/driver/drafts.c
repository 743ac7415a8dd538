#include "drafts.h"

#include "calls.h"
#include "random.h"
#include "reference.h"
#include "report.h"
#include "trap.h"

#include <string.h>

/* A clause; overlapping and empty ones occur. */
static void some_clause(uint32_t facts, uint32_t thin, uint16_t *clause)
{
    if (chance(4)) {
        clause[0] = some_mask(facts, 1);
        clause[1] = some_mask(facts, 1);
    } else if (chance(2)) {
        clause[0] = clause[1] = 0;
    } else {
        some_pair(facts, thin, clause);
        uint16_t spare = (uint16_t)(1u << below(facts));
        if (clause[0] == 0 && clause[1] == 0)
            clause[below(2)] = spare;
    }
}

/* The greatest F, A, R, I, G, H of each size. */
static const uint32_t most[SIZES][6] = {
    {3, 3, 4, 3, 3, 3}, {5, 4, 6, 4, 4, 4}, {8, 6, 12, 8, 8, 8},
    {12, 12, 24, 16, 16, 8}, {12, 12, 24, 16, 16, 8},
};

void some_counts(struct draft *d, enum size size)
{
    uint32_t count[6];
    for (int i = 0; i < 6; i++) {
        uint32_t low = i < 2;
        count[i] = between(low, most[size][i]);
        if (size == EDGE)
            count[i] = chance(50) ? low : most[size][i];
    }
    d->facts = count[0];
    d->actions = count[1];
    d->rules = count[2];
    d->starts = count[3];
    d->goals = count[4];
    d->horizon = count[5];
}

void random_draft(struct draft *d, enum size size)
{
    memset(d, 0, sizeof *d);
    some_counts(d, size);
    uint32_t need_thin = between(1, 5), cond_thin = between(0, 4);
    uint32_t set_thin = between(1, 4), clause_thin = between(0, 3);
    for (uint32_t i = 0; i < d->actions; i++)
        some_pair(d->facts, need_thin, d->need[i]);
    for (uint32_t i = 0; i < d->rules; i++) {
        d->rule[i][0] = (uint16_t)between(1, d->actions);
        some_pair(d->facts, cond_thin, &d->rule[i][1]);
        some_pair(d->facts, set_thin, &d->rule[i][3]);
    }
    for (uint32_t i = 0; i < d->starts; i++)
        some_clause(d->facts, clause_thin, d->start[i]);
    for (uint32_t i = 0; i < d->goals; i++)
        some_clause(d->facts, clause_thin, d->goal[i]);
}

/* Each write enables a bit if the one before is on; needs or conditions. */
static void chain_draft(struct draft *d)
{
    uint32_t length = between(2, 5), hard = below(2);
    d->facts = d->actions = length;
    for (uint32_t k = 0; k < length; k++) {
        uint32_t before = k ? 1u << (k - 1) : 0;
        if (hard)
            d->need[k][0] = (uint16_t)before;
        add_rule(d, k + 1, hard ? 0 : before, 0, 1u << k, 0);
        if (chance(40))
            add_start(d, 0, 1u << k);
    }
    add_goal(d, 1u << (length - 1), 0);
    d->horizon = between(length - 1, length + 1);
}

/* Two or three keys in order unlock a bit, a wrong key resets the lock. */
static void unlock_draft(struct draft *d)
{
    uint32_t keys = between(2, 3), open = 1u << keys;
    uint32_t progress = open - 1;
    d->facts = keys + 1;
    d->actions = keys + 1;
    for (uint32_t k = 0; k < keys; k++) {
        uint32_t before = k ? 1u << (k - 1) : 0;
        add_rule(d, k + 1, before, 0, 1u << k, before);
        if (k)
            add_rule(d, k + 1, 0, before, 0, progress & ~before);
    }
    add_rule(d, keys + 1, 1u << (keys - 1), 0, open, 0);
    if (chance(60))
        add_start(d, 0, open);
    if (chance(40))
        add_start(d, 0, 1);
    add_goal(d, open, 0);
    d->horizon = between(keys, keys + 2);
}

/* Two writes select a bank, further writes go to the selected bank. */
static void bank_draft(struct draft *d)
{
    uint32_t bits = between(1, 2), bank = 1;
    d->facts = 1 + 2 * bits;
    d->actions = 2 + bits;
    add_rule(d, 1, 0, 0, 0, bank);
    add_rule(d, 2, 0, 0, bank, 0);
    for (uint32_t k = 0; k < bits; k++) {
        uint32_t low = 2u << k, high = 2u << (bits + k);
        add_rule(d, 3 + k, 0, bank, low, 0);
        add_rule(d, 3 + k, bank, 0, high, 0);
        add_goal(d, low, 0);
        if (chance(70))
            add_goal(d, high, 0);
        if (chance(50))
            add_start(d, 0, low | high);
    }
    d->horizon = between(2, bits == 1 ? 4 : 5);
}

/* A reset with settle bit, a clock that needs it, a device that needs both. */
static void reset_draft(struct draft *d)
{
    d->facts = 4;
    d->actions = 4;
    add_rule(d, 1, 0, 0, 1, 14);
    add_rule(d, 2, 1, 0, 2, 0);
    d->need[1][1] = 4;
    d->need[2][0] = 2;
    add_rule(d, 3, 2, 8, 4, 1);
    add_rule(d, 4, 4, 0, 8, 0);
    add_rule(d, 4, 0, 4, 0, 2);
    if (chance(50))
        add_start(d, 1, 2);
    if (chance(30))
        add_start(d, 0, 12);
    add_goal(d, 8, 0);
    add_goal(d, 2, 4);
    d->horizon = between(1, 5);
}

static void (*const realistic[])(struct draft *) = {
    chain_draft, unlock_draft, bank_draft, reset_draft,
};

void realistic_draft(struct draft *d)
{
    memset(d, 0, sizeof *d);
    realistic[below(4)](d);
    if (chance(20))
        some_pair(d->facts, 2, d->need[below(d->actions)]);
    uint32_t action = between(1, d->actions), set = 1u << below(d->facts);
    if (chance(20))
        add_rule(d, action, 0, 0, set, 0);
    if (chance(15) && d->rules)
        d->rules--;
}

/* Gives an action the need and the rules of another, as far as rules go. */
static void copy_action(struct draft *d)
{
    uint32_t from = between(1, d->actions), to = between(1, d->actions);
    uint32_t rules = d->rules;
    if (from == to)
        return;
    memcpy(d->need[to - 1], d->need[from - 1], sizeof d->need[0]);
    for (uint32_t i = 0; i < rules && d->rules < 24; i++) {
        uint16_t *r = d->rule[i];
        if (r[0] == from)
            add_rule(d, to, r[1], r[2], r[3], r[4]);
    }
}

/* The state that a random walk of some steps reaches. */
static uint32_t walk(const struct draft *d, uint32_t state)
{
    struct text t;
    uint8_t schedule[8], answer[16];
    uint32_t number[5], len = between(1, 5);
    encode(d, &t);
    for (uint32_t i = 0; i < len; i++)
        schedule[i] = (uint8_t)between(1, d->actions);
    describe(t.byte, t.len, "walk: state %u", state);
    running = REFERENCE;
    ref_run(t.byte, t.len, state, schedule, len, answer, sizeof answer);
    running = DRIVER;
    read_numbers(answer, sizeof answer, number);
    return number[2];
}

/* Puts goals on facts that a walk changed, at times on all facts. */
static void goal_by_walk(struct draft *d, uint32_t state)
{
    uint32_t reached = state, facts = (1u << d->facts) - 1;
    for (int i = 0; i < 20 && reached == state; i++)
        reached = walk(d, state);
    if (chance(60))
        facts &= reached ^ state;
    for (uint32_t k = 0; k < d->facts; k++)
        if (facts >> k & 1)
            add_goal(d, reached & 1u << k, ~reached & 1u << k);
}

/* Rules with one or two conditions and one or two facts set. */
static void light_rules(struct draft *d)
{
    for (uint32_t i = between(d->actions, d->actions + 4); i; i--) {
        uint32_t action = i <= d->actions ? i : between(1, d->actions);
        uint32_t cond = chance(70) ? 1u << below(d->facts) : 0;
        uint32_t set = 1u << below(d->facts);
        if (chance(30))
            set |= 1u << below(d->facts);
        uint32_t sides = (uint32_t)rnd();
        add_rule(d, action, cond & sides, cond & ~sides,
                 set & sides >> 16, set & ~(sides >> 16));
    }
}

void reachable_draft(struct draft *d)
{
    uint32_t state;
    memset(d, 0, sizeof *d);
    d->facts = between(2, 5);
    d->actions = between(2, 4);
    d->horizon = between(1, 4);
    light_rules(d);
    state = below(1u << d->facts);
    for (uint32_t k = 0; k < d->facts; k++)
        if (chance(90))
            add_start(d, state & 1u << k, ~state & 1u << k);
    for (uint32_t i = 0; i < d->actions; i++)
        if (chance(30))
            some_pair(d->facts, 2, d->need[i]);
    if (chance(40))
        copy_action(d);
    goal_by_walk(d, state);
}

void make_text(struct draft *d, struct text *t)
{
    static const enum size sizes[] = {
        TINY, TINY, TINY, TINY, SMALL, SMALL, SMALL, MIDDLE, MIDDLE, ANY, EDGE,
    };
    random_draft(d, sizes[below(sizeof sizes / sizeof *sizes)]);
    encode(d, t);
}

void clause_draft(struct draft *d)
{
    memset(d, 0, sizeof *d);
    d->facts = between(9, 12);
    d->actions = between(1, 2);
    for (uint32_t i = between(4, 16); i; i--) {
        uint32_t pos = some_mask(d->facts, 2), neg = some_mask(d->facts, 2);
        add_start(d, pos, neg);
    }
    for (uint32_t i = between(4, 16); i; i--) {
        uint32_t pos = some_mask(d->facts, 2), neg = some_mask(d->facts, 2);
        add_goal(d, pos, neg);
    }
    for (uint32_t i = between(0, 4); i; i--) {
        uint32_t action = between(1, d->actions), cond = some_mask(d->facts, 4);
        add_rule(d, action, cond, 0, 1u << below(d->facts), 0);
    }
}

void rule_draft(struct draft *d, uint32_t facts)
{
    memset(d, 0, sizeof *d);
    d->facts = facts;
    d->actions = between(1, 2);
    for (uint32_t i = between(18, 24); i; i--) {
        uint16_t *r = d->rule[d->rules++];
        r[0] = (uint16_t)between(1, d->actions);
        some_pair(facts, 2, &r[1]);
        some_pair(facts, 2, &r[3]);
    }
}
