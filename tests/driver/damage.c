#include "damage.h"

#include "random.h"

#include <string.h>

static void damage_length(struct text *t)
{
    size_t len = below(21);
    if (len > t->len)
        len = t->len;
    memmove(t->byte, t->byte + (chance(70) ? t->len - len : 0), len);
    t->len = len;
}

static void damage_mark(struct text *t)
{
    uint8_t *mark = t->byte + t->len - 2;
    switch (below(4)) {
    case 0: mark[0] ^= (uint8_t)(1 << below(8)); break;
    case 1: mark[1] ^= (uint8_t)(1 << below(8)); break;
    case 2: mark[0] = 0x53; mark[1] = 0x52; break;
    default: mark[0] = mark[1] = chance(50) ? 0x52 : 0x53; break;
    }
}

/* One count just outside its bounds, back and length following the counts. */
static void damage_count(struct draft *d, struct text *t)
{
    switch (below(8)) {
    case 0: d->facts = 0; break;
    case 1: d->facts = 13; break;
    case 2: d->actions = 0; break;
    case 3: d->actions = 13; break;
    case 4: d->rules = 25; break;
    case 5: d->starts = 17; break;
    case 6: d->goals = 17; break;
    default: d->horizon = 9; break;
    }
    encode(d, t);
}

/* One count changed in the trailer alone: a bound, a high byte, or anything. */
static void damage_count_alone(struct text *t)
{
    uint32_t index = below(6), value = below(30);
    if (chance(30))
        value = t->byte[t->len - 16 + 2 * index] | 256u << below(8);
    if (chance(10))
        value = (uint32_t)rnd();
    set_trailer(t, index, value);
}

static void damage_back(struct text *t)
{
    uint32_t back = (uint32_t)t->len - 16;
    switch (below(5)) {
    case 0: back++; break;
    case 1: back--; break;
    case 2: back += 16; break;
    case 3: back ^= 1u << below(16); break;
    default: back = (uint32_t)rnd(); break;
    }
    set_trailer(t, 6, back);
}

/* Bytes too many or too few before the trailer, back following or not. */
static void damage_file(struct text *t)
{
    size_t many = between(1, 20);
    if (chance(50)) {
        memmove(t->byte + many, t->byte, t->len);
        if (chance(50))
            memset(t->byte, 0, many);
        t->len += many;
    } else {
        if (many > t->len - 16)
            many = t->len - 16;
        t->len -= many;
        memmove(t->byte, t->byte + many, t->len);
    }
    if (chance(40))
        set_trailer(t, 6, (uint32_t)t->len - 16);
}

/* Some row's numbers without the rule's action, and how many; NULL if none. */
static uint16_t *some_row(struct draft *d, uint32_t which, uint32_t *count)
{
    *count = which == 1 ? 4 : 2;
    if (which == 0)
        return d->need[below(d->actions)];
    if (which == 1 && d->rules)
        return &d->rule[below(d->rules)][1];
    if (which == 2 && d->starts)
        return d->start[below(d->starts)];
    if (which == 3 && d->goals)
        return d->goal[below(d->goals)];
    return NULL;
}

/* A bit at F or above in some row of each kind. */
static void damage_mask(struct draft *d, struct text *t)
{
    uint32_t count;
    uint16_t *row = some_row(d, below(4), &count);
    uint32_t bit = chance(60) ? d->facts : between(d->facts, 15);
    if (row)
        row[below(count)] |= (uint16_t)(1u << bit);
    encode(d, t);
}

/* One fact in both masks of a pair; in a clause that is allowed. */
static void damage_pair(struct draft *d, struct text *t)
{
    uint32_t count;
    uint16_t *row = some_row(d, below(4), &count);
    uint16_t bit = (uint16_t)(1u << below(d->facts));
    if (row) {
        row += 2 * below(count / 2);
        row[0] |= bit;
        row[1] |= bit;
    }
    encode(d, t);
}

static void damage_action(struct draft *d, struct text *t)
{
    static const uint16_t values[] = {0, 0x0101, 0x0100, 0xffff, 13, 0x8001};
    if (d->rules) {
        uint16_t *action = d->rule[below(d->rules)];
        *action = values[below(6)];
        if (chance(40))
            *action = (uint16_t)(d->actions + 1);
    }
    encode(d, t);
}

static void damage_bytes(struct text *t)
{
    for (uint32_t i = between(1, 3); i && t->len; i--) {
        uint8_t bit = (uint8_t)(1 << below(8));
        t->byte[below((uint32_t)t->len)] ^= bit;
    }
}

/* Damage to the rows comes first because it writes the text afresh. */
static void damage_rows(struct draft *d, struct text *t)
{
    switch (below(4)) {
    case 0: damage_mask(d, t); break;
    case 1: damage_pair(d, t); break;
    case 2: damage_action(d, t); break;
    default: damage_count(d, t); break;
    }
}

static void damage_text(struct text *t)
{
    switch (below(6)) {
    case 0: damage_mark(t); break;
    case 1: damage_count_alone(t); break;
    case 2: damage_back(t); break;
    case 3: damage_file(t); break;
    case 4: damage_bytes(t); break;
    default: damage_length(t); break;
    }
}

void damage_sheet(struct draft *d, struct text *t)
{
    if (chance(60)) {
        damage_rows(d, t);
        if (chance(20) && d->facts && d->facts < 13 && d->actions && d->actions < 13)
            damage_rows(d, t);
        if (chance(20))
            damage_text(t);
    } else {
        damage_text(t);
        if (chance(20) && t->len >= 16)
            damage_text(t);
    }
}
