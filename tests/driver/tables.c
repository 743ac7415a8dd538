#include "tables.h"

#include "lent.h"
#include "random.h"

#include <stdlib.h>
#include <string.h>

void some_masks(struct judged *j, uint32_t actions)
{
    uint32_t count = j->horizon > 8 ? below(10) : j->horizon;
    j->masks_len = 2 * count;
    if (chance(8))
        j->masks_len = below(20);
    for (size_t i = 0; i < sizeof j->masks; i += 2) {
        uint32_t mask = chance(70) ? 1u << below(actions) : some_mask(actions, 1);
        if (chance(15))
            mask = 0;
        if (chance(1))
            mask |= 1u << between(actions, 15);
        j->masks[i] = (uint8_t)mask;
        j->masks[i + 1] = (uint8_t)(mask >> 8);
    }
}

/* Fills in all that is not the table, at times outside its bounds. */
static void some_judged(struct judged *j, const struct draft *d)
{
    j->state = below(1u << d->facts);
    if (chance(3))
        j->horizon = below(9);
    some_masks(j, d->actions);
    if (chance(2))
        j->state |= 1u << between(d->facts, 31);
    if (chance(20))
        j->root = below(j->count);
    if (chance(2))
        j->root = chance(50) ? j->count : (uint32_t)rnd();
    if (chance(3))
        j->count = chance(50) ? below(3) : j->count + between(1, 3);
    if (chance(1))
        j->count = (uint32_t)rnd();
    if (chance(2))
        j->horizon = chance(50) ? between(0, 9) : (uint32_t)rnd();
}

static void put_row(uint8_t *rows, uint32_t at, uint32_t a, uint32_t b,
                    uint32_t c, uint32_t d)
{
    uint32_t n[4] = {a, b, c, d};
    for (size_t i = 0; i < 16; i++)
        rows[(size_t)at * ROW + i] = (uint8_t)(n[i / 4] >> 8 * (i % 4));
}

static uint32_t row_number(const uint8_t *rows, uint32_t at, uint32_t part)
{
    uint32_t number[5];
    read_numbers(rows + (size_t)at * ROW + 4 * part, 4, number);
    return number[0];
}

static void change_number(uint8_t *rows, uint32_t at, uint32_t part, uint32_t value)
{
    for (size_t i = 0; i < 4; i++)
        rows[(size_t)at * ROW + 4 * part + i] = (uint8_t)(value >> 8 * i);
}

/* A value that is wrong, or nearly wrong, for one number of a row. */
static uint32_t odd_value(uint32_t at, uint32_t variables)
{
    switch (below(10)) {
    case 0: return 0;
    case 1: return 1;
    case 2: return 2;
    case 3: return at;
    case 4: return at + 1;
    case 5: return at ? at - 1 : 0;
    case 6: return variables;
    case 7: return variables + 1;
    case 8: return 1u << below(32);
    default: return (uint32_t)rnd();
    }
}

/* Spoils one number of one row, or puts a constant row where none may stand. */
static void damage_table(uint8_t *rows, uint32_t count, uint32_t variables)
{
    uint32_t at = chance(20) ? below(2) : below(count);
    uint32_t part = below(4);
    switch (below(6)) {
    case 0:
        put_row(rows, at, below(2), 0, 0, 0);
        break;
    case 1:
        change_number(rows, at, 0, row_number(rows, at, 0) | 256u << 8 * below(3));
        break;
    case 2:
        change_number(rows, at, 0, chance(50) ? below(7) : (uint32_t)rnd());
        break;
    default:
        change_number(rows, at, part, odd_value(at, variables));
        break;
    }
}

void random_table(uint8_t *rows, uint32_t count, uint32_t variables)
{
    put_row(rows, 0, 0, 0, 0, 0);
    put_row(rows, 1, 1, 0, 0, 0);
    for (uint32_t at = 2; at < count; at++) {
        uint32_t v = between(1, variables);
        uint32_t l = chance(70) ? at - 1 - below(at < 8 ? at : 8) : below(at);
        uint32_t r = chance(50) ? at - 1 - below(at < 8 ? at : 8) : below(at);
        uint32_t form = below(5);
        if (form < 2)
            put_row(rows, at, 2, v, below(2), 0);
        else if (form == 2)
            put_row(rows, at, 3, 0, l, r);
        else
            put_row(rows, at, 4, v, l, r);
    }
}

void judge_copy(const struct text *t, const struct draft *d, struct judged *j,
                uint32_t horizon, int damaged)
{
    size_t len = j->rows_len;
    uint8_t *copy = malloc(len + 1);
    const uint8_t *table = j->rows;
    memcpy(copy, table, len);
    if (damaged)
        damage_table(copy, j->count, variables_of(d, horizon));
    j->rows = copy;
    some_judged(j, d);
    both_judge(t, j);
    j->rows = table;
    free(copy);
}
