/* Plans the sheet on standard input and shows what each write is for: shorter < SHEET
 * The first line is the plan; each further line leaves one write out and lists the starts from which the rest fails. */
#include <stdio.h>
#include <string.h>

#include "bringup.h"

/* The longest sheet is 432 bytes; one byte more tells longer input apart, and the library refuses it. */
static uint8_t sheet[433];
static size_t length;
static uint8_t rows[BRINGUP_ROW_BYTES * BRINGUP_MOST_ROWS];

static unsigned number16(size_t at)
{
    return sheet[at] + 256u * sheet[at + 1];
}

/* Count i of the trailer: F, A, R, I. */
static unsigned count(size_t i)
{
    return number16(length - 16 + 2 * i);
}

/* A start is a state in which every start clause has a fact of pos that is 1 or one of neg that is 0. */
static int is_start(unsigned state)
{
    size_t first = 4 * count(1) + 10 * count(2);
    for (unsigned i = 0; i < count(3); i++) {
        size_t clause = first + 4 * i;
        if (!(number16(clause) & state) && !(number16(clause + 2) & ~state))
            return 0;
    }
    return 1;
}

static int works(unsigned state, const uint8_t *schedule, size_t steps)
{
    uint8_t answer[BRINGUP_RUN_BYTES];
    return bringup_run(sheet, length, state, schedule, steps, answer, sizeof answer) == BRINGUP_ANSWERED && answer[12] == 1;
}

/* A schedule and the starts from which it fails. */
static void print_starts(const uint8_t *schedule, size_t steps)
{
    int fails = 0;
    for (size_t i = 0; i < steps; i++)
        printf("%u ", schedule[i]);
    for (unsigned state = 0; state < 1u << count(0); state++)
        if (is_start(state) && !works(state, schedule, steps))
            printf(fails++ ? " %u" : "fails from %u", state);
    puts(fails ? "" : "works from every start");
}

int main(void)
{
    uint8_t schedule[BRINGUP_MOST_STEPS], left[BRINGUP_MOST_STEPS], answer[BRINGUP_PLAN_BYTES];
    length = fread(sheet, 1, sizeof sheet, stdin);
    uint32_t code = bringup_plan(sheet, length, 1000000, rows, sizeof rows, schedule, sizeof schedule, answer, sizeof answer);
    if (code != BRINGUP_ANSWERED) {
        fprintf(stderr, "shorter: no plan, code %lu\n", (unsigned long)code);
        return (int)code;
    }
    size_t steps = answer[4];
    print_starts(schedule, steps);
    for (size_t i = 0; i < steps; i++) {
        memcpy(left, schedule, i);
        memcpy(left + i, schedule + i + 1, steps - i - 1);
        print_starts(left, steps - 1);
    }
    return 0;
}
