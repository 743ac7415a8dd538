/* Times compile, judge and plan on sheets: bench NAME=FILE... prints a line for each measurement,
 * sheet, operation, horizon, code, effort, rows, parts, nanoseconds; the time is the best of some calls.
 * Linked with the library, with the library as it was, or with plain.c, which alone tells how many parts it compiled. */
#include <stdio.h>
#include <stdlib.h>
#include <string.h>
#include <time.h>

#include "bringup.h"

/* The first versions have no planner. */
#pragma weak bringup_plan

extern uint64_t plain_parts __attribute__((weak));

enum { BUDGET = 100000000, MOST = 200, LIMIT = 20000000 };

static uint8_t sheet[433], rows[BRINGUP_ROW_BYTES * BRINGUP_MOST_ROWS];
static size_t length;
static uint8_t answer[20];
static uint32_t code, horizon, count, root, state;

static uint32_t number(int i)
{
    uint32_t n;
    memcpy(&n, answer + 4 * i, 4);
    return n;
}

static double now(void)
{
    struct timespec t;
    clock_gettime(CLOCK_MONOTONIC, &t);
    return 1e9 * (double)t.tv_sec + (double)t.tv_nsec;
}

static void compile(void)
{
    code = bringup_compile(sheet, length, horizon, LIMIT, rows, sizeof rows, answer, sizeof answer);
}

static void judge(void)
{
    static const uint8_t masks[2 * BRINGUP_MOST_STEPS] = {1, 0, 1, 0, 1, 0, 1, 0, 1, 0, 1, 0, 1, 0, 1, 0};
    code = bringup_judge(sheet, length, horizon, rows, sizeof rows, count, root, state++ % 2, masks, 2 * horizon, answer, sizeof answer);
}

static void plan(void)
{
    uint8_t schedule[BRINGUP_MOST_STEPS];
    code = bringup_plan(sheet, length, LIMIT, rows, sizeof rows, schedule, sizeof schedule, answer, sizeof answer);
}

/* The shortest of as many calls as fit the budget, at least one. */
static double best(void (*call)(void))
{
    double least = 0, begin = now();
    for (int i = 0; i < MOST && (i == 0 || now() - begin < BUDGET); i++) {
        if (&plain_parts)
            plain_parts = 0;
        double before = now();
        call();
        double taken = now() - before;
        if (i == 0 || taken < least)
            least = taken;
    }
    return least;
}

static void line(const char *name, const char *operation, uint32_t effort, uint32_t made, double taken)
{
    unsigned long parts = &plain_parts ? (unsigned long)plain_parts : 0;
    printf("%s\t%s\t%u\t%u\t%u\t%u\t%lu\t%.0f\n", name, operation, horizon, code, effort, made, parts, taken);
    fflush(stdout);
}

/* Compile at each horizon, judge on the last circuit, plan. */
static void measure(const char *name)
{
    uint32_t last = sheet[length - 6];
    for (horizon = 0; horizon <= last; horizon++) {
        double taken = best(compile);
        line(name, "compile", number(2), number(3), taken);
    }
    horizon = last;
    count = number(3);
    root = number(4);
    if (code == BRINGUP_ANSWERED) {
        double taken = best(judge);
        line(name, "judge", 0, count, taken);
    }
    if (!bringup_plan)
        return;
    double taken = best(plan);
    horizon = number(1);
    line(name, "plan", number(2), number(3), taken);
}

int main(int argc, char **argv)
{
    for (int i = 1; i < argc; i++) {
        char *file = strchr(argv[i], '=');
        FILE *in = file ? fopen(file + 1, "rb") : NULL;
        if (!in) {
            fprintf(stderr, "bench: %s cannot be read\n", argv[i]);
            return 2;
        }
        *file = 0;
        length = fread(sheet, 1, sizeof sheet, in);
        fclose(in);
        measure(argv[i]);
    }
    return 0;
}
