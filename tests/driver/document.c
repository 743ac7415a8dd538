/* The document's own cases, with the answers it prints. */

#include "calls.h"
#include "kinds.h"
#include "lent.h"
#include "report.h"

#include <stdio.h>
#include <stdlib.h>
#include <string.h>

static void draft_d(struct draft *d, uint32_t horizon)
{
    memset(d, 0, sizeof *d);
    d->facts = d->actions = 2;
    d->horizon = horizon;
    add_rule(d, 1, 0, 0, 0, 1);
    add_rule(d, 2, 0, 1, 2, 0);
    add_goal(d, 2, 0);
}

/* Both sides have answered alike, so one look is for both. */
static void expect(const uint32_t *got, const uint32_t *wanted, size_t count)
{
    if (memcmp(got, wanted, count * sizeof *got) == 0)
        return;
    print_place();
    for (size_t i = 0; i < count; i++)
        printf("both sides give %u, the document %u\n", got[i], wanted[i]);
    fflush(stdout);
    exit(1);
}

/* Code, place, horizon and two entries of a plan as the program makes it. */
static void expect_plan(const struct text *t, uint32_t code, uint32_t place,
                        uint32_t horizon, uint32_t first, uint32_t second)
{
    uint32_t wanted[5] = {code, place, horizon, first, second};
    struct told told;
    both_plan(t, 1000000, 4000 * ROW, 8, &told);
    uint32_t got[5] = {told.code, told.number[0], told.number[1],
                       told.schedule[0], told.schedule[1]};
    expect(got, wanted, 5);
}

static void expect_run(const struct draft *d, uint32_t state, const char *entries,
                       uint32_t done, uint32_t reached, uint32_t goal)
{
    struct text t;
    struct told told;
    uint8_t schedule[8];
    size_t len = strlen(entries);
    uint32_t wanted[5] = {0, 0, done, reached, goal};
    encode(d, &t);
    for (size_t i = 0; i < len; i++)
        schedule[i] = (uint8_t)(entries[i] - '0');
    both_run(&t, state, schedule, len, &told);
    uint32_t got[5] = {told.code, told.number[0], told.number[1],
                       told.number[2], told.number[3]};
    expect(got, wanted, 5);
}

static void expect_circuit(const struct draft *d, uint32_t limit, size_t room,
                           uint32_t code, uint32_t effort, uint32_t rows,
                           uint32_t root)
{
    struct text t;
    struct told told;
    uint32_t wanted[6] = {code, 0, 0, effort, rows, root};
    encode(d, &t);
    both_compile(&t, 0, limit, room * ROW, &told);
    uint32_t got[6] = {told.code};
    memcpy(got + 1, told.number, sizeof told.number);
    expect(got, wanted, 6);
}

static void document_plans(void)
{
    struct draft d;
    struct text t;
    draft_d(&d, 2);
    encode(&d, &t);
    expect_plan(&t, 0, 0, 2, 1, 2);
    t.byte[16] = 4;
    expect_plan(&t, 4, 8, 0, 0, 0);
    draft_d(&d, 1);
    encode(&d, &t);
    expect_plan(&t, 9, 0, 1, 0, 0);
    draft_d(&d, 2);
    add_start(&d, 0, 1);
    encode(&d, &t);
    expect_plan(&t, 0, 0, 1, 2, 0);
    draft_d(&d, 2);
    add_start(&d, 2, 0);
    encode(&d, &t);
    expect_plan(&t, 0, 0, 0, 0, 0);
}

static void document_runs(void)
{
    struct draft d;
    draft_d(&d, 2);
    expect_run(&d, 1, "212", 3, 2, 1);
    d.need[1][1] = 1;
    d.rule[1][2] = 0;
    expect_run(&d, 1, "212", 0, 1, 0);
    draft_d(&d, 2);
    d.rules = d.goals = 0;
    add_rule(&d, 1, 1, 0, 2, 0);
    add_rule(&d, 1, 0, 0, 0, 2);
    expect_run(&d, 1, "1", 0, 1, 0);
    expect_run(&d, 2, "1", 1, 0, 1);
    d.rules = 0;
    add_rule(&d, 1, 1, 0, 2, 0);
    add_rule(&d, 1, 0, 1, 0, 2);
    add_rule(&d, 1, 2, 0, 1, 0);
    add_rule(&d, 1, 0, 2, 0, 1);
    expect_run(&d, 1, "1", 1, 2, 1);
}

static void document_circuits(void)
{
    struct draft d;
    memset(&d, 0, sizeof d);
    d.facts = d.actions = 1;
    add_goal(&d, 1, 0);
    expect_circuit(&d, 0, 3, 0, 0, 3, 2);
    add_goal(&d, 0, 1);
    expect_circuit(&d, 0, 3, 0, 0, 3, 0);
    d.facts = 2;
    d.goals = 0;
    add_goal(&d, 3, 0);
    expect_circuit(&d, 1, 7, 0, 1, 7, 6);
    d.facts = 4;
    add_goal(&d, 12, 0);
    expect_circuit(&d, 2, 13, 0, 2, 13, 12);
    expect_circuit(&d, 2, 12, 8, 2, 0, 0);
    expect_circuit(&d, 1, 12, 7, 0, 0, 0);
}

void kind_document(void)
{
    static const uint8_t printed[] = {
        0, 0, 0, 0, 0, 0, 0, 0, 1, 0, 0, 0, 0, 0, 0, 0, 1, 0, 2, 0, 0, 0, 1, 0,
        2, 0, 0, 0, 2, 0, 0, 0, 2, 0, 2, 0, 2, 0, 0, 0, 1, 0, 2, 0, 0x20, 0,
        0x52, 0x53,
    };
    struct draft d;
    struct text t;
    draft_d(&d, 2);
    encode(&d, &t);
    describe(t.byte, t.len, "bytes of sheet D");
    if (t.len != sizeof printed || memcmp(t.byte, printed, sizeof printed))
        stop_with("sheet D is not written as the document prints it");
    document_plans();
    document_runs();
    document_circuits();
}
