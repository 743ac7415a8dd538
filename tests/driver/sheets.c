#include "sheets.h"

#include "random.h"

static void put16(struct text *t, uint32_t number)
{
    t->byte[t->len++] = (uint8_t)number;
    t->byte[t->len++] = (uint8_t)(number >> 8);
}

void encode(const struct draft *d, struct text *t)
{
    t->len = 0;
    for (uint32_t i = 0; i < d->actions; i++)
        for (int k = 0; k < 2; k++)
            put16(t, d->need[i][k]);
    for (uint32_t i = 0; i < d->rules; i++)
        for (int k = 0; k < 5; k++)
            put16(t, d->rule[i][k]);
    for (uint32_t i = 0; i < d->starts; i++)
        for (int k = 0; k < 2; k++)
            put16(t, d->start[i][k]);
    for (uint32_t i = 0; i < d->goals; i++)
        for (int k = 0; k < 2; k++)
            put16(t, d->goal[i][k]);
    uint32_t back = (uint32_t)t->len;
    put16(t, d->facts);
    put16(t, d->actions);
    put16(t, d->rules);
    put16(t, d->starts);
    put16(t, d->goals);
    put16(t, d->horizon);
    put16(t, back);
    put16(t, 0x5352);
}

void set_trailer(struct text *t, uint32_t index, uint32_t value)
{
    uint8_t *at = t->byte + t->len - 16 + 2 * index;
    at[0] = (uint8_t)value;
    at[1] = (uint8_t)(value >> 8);
}

uint32_t variables_of(const struct draft *d, uint32_t horizon)
{
    return d->facts + horizon * (d->actions + d->rules + d->facts);
}

void add_rule(struct draft *d, uint32_t action, uint32_t cond1, uint32_t cond0,
              uint32_t set1, uint32_t set0)
{
    uint16_t *r = d->rule[d->rules++];
    r[0] = (uint16_t)action;
    r[1] = (uint16_t)cond1;
    r[2] = (uint16_t)cond0;
    r[3] = (uint16_t)set1;
    r[4] = (uint16_t)set0;
}

void add_start(struct draft *d, uint32_t pos, uint32_t neg)
{
    d->start[d->starts][0] = (uint16_t)pos;
    d->start[d->starts++][1] = (uint16_t)neg;
}

void add_goal(struct draft *d, uint32_t pos, uint32_t neg)
{
    d->goal[d->goals][0] = (uint16_t)pos;
    d->goal[d->goals++][1] = (uint16_t)neg;
}

uint16_t some_mask(uint32_t facts, uint32_t thin)
{
    uint64_t mask = (1u << facts) - 1;
    while (thin--)
        mask &= rnd();
    return (uint16_t)mask;
}

void some_pair(uint32_t facts, uint32_t thin, uint16_t *pair)
{
    uint16_t both = some_mask(facts, thin);
    uint16_t side = (uint16_t)rnd();
    pair[0] = both & side;
    pair[1] = both & (uint16_t)~side;
}
