#ifndef SHEETS_H
#define SHEETS_H

#include <stddef.h>
#include <stdint.h>

/* Sheets, as bytes and as drafts that are written into bytes. */

struct text {
    uint8_t byte[1024];
    size_t len;
};

/* The numbers of a sheet, with room for counts outside their bounds. */
struct draft {
    uint32_t facts, actions, rules, starts, goals, horizon;
    uint16_t need[16][2];
    uint16_t rule[32][5];
    uint16_t start[24][2];
    uint16_t goal[24][2];
};

void encode(const struct draft *d, struct text *t);

/* Writes one number of the trailer without touching the rest. */
void set_trailer(struct text *t, uint32_t index, uint32_t value);

uint32_t variables_of(const struct draft *d, uint32_t horizon);

void add_rule(struct draft *d, uint32_t action, uint32_t cond1, uint32_t cond0,
              uint32_t set1, uint32_t set0);
void add_start(struct draft *d, uint32_t pos, uint32_t neg);
void add_goal(struct draft *d, uint32_t pos, uint32_t neg);

/* A mask of facts, each bit with one chance in 2^thin. */
uint16_t some_mask(uint32_t facts, uint32_t thin);

/* Two masks without a common bit. */
void some_pair(uint32_t facts, uint32_t thin, uint16_t *pair);

#endif
