/* How much stack each call takes on sheets that need much: no more than bringup.h says, of check and run under the 2 KiB of its comment. Prints
 * the deepest of each; the status is 1 if one is deeper. */
#include <stdio.h>
#include <string.h>
#include <sys/mman.h>
#include <ucontext.h>

#include "bringup.h"

enum { DEPTH = 8 << 20, PAINT = 0xa5, UNDER_2_KIB = 2047, FACTS = 12, WRITES = 12, RULES = 24, STEPS = 8 };

static uint8_t sheet[432], rows[BRINGUP_ROW_BYTES * BRINGUP_MOST_ROWS], schedule[STEPS], masks[2 * STEPS], answer[20];
static size_t length;
static uint8_t *stack;
static ucontext_t back, there;

static void put(unsigned number)
{
    sheet[length++] = (uint8_t)number;
    sheet[length++] = (uint8_t)(number >> 8);
}

static void put_trailer(unsigned starts, unsigned goals)
{
    unsigned body = (unsigned)length;
    const unsigned numbers[] = {FACTS, WRITES, RULES, starts, goals, STEPS, body, 0x5352};
    for (size_t i = 0; i < 8; i++)
        put(numbers[i]);
}

/* Every write sets and clears every fact: it can never be done, which only choices find out, one below the other. */
static void fighting_writes(void)
{
    length = 0;
    for (int i = 0; i < 2 * WRITES; i++)
        put(0);
    for (unsigned i = 0; i < RULES; i++) {
        put(i % WRITES + 1);
        put(0);
        put(0);
        put(i < WRITES ? 0xfff : 0);
        put(i < WRITES ? 0 : 0xfff);
    }
    put_trailer(0, 0);
}

/* Every fact is 0 at the start, every write needs fact 0, which is wanted: one-literal clauses settle all variables, at each horizon. */
static void all_settled(void)
{
    length = 0;
    for (int i = 0; i < WRITES; i++) {
        put(1);
        put(0);
    }
    for (unsigned i = 0; i < RULES; i++) {
        put(i % WRITES + 1);
        put(0);
        put(0);
        put(1u << i % FACTS);
        put(0);
    }
    for (unsigned f = 0; f < FACTS; f++) {
        put(0);
        put(1u << f);
    }
    put(1);
    put(0);
    put_trailer(FACTS, 1);
}

static void check(void)
{
    bringup_check(sheet, length, answer, sizeof answer);
}

static void run(void)
{
    bringup_run(sheet, length, 0, schedule, sizeof schedule, answer, sizeof answer);
}

/* Writes, and from a state that meets their needs on the sheet of settled variables, where they are carried out. */
static void run_writes(void)
{
    static const uint8_t writes[STEPS] = {1, 2, 3, 4, 5, 6, 7, 8};
    bringup_run(sheet, length, 1, writes, sizeof writes, answer, sizeof answer);
}

static void compile(void)
{
    bringup_compile(sheet, length, STEPS, 300, rows, sizeof rows, answer, sizeof answer);
}

/* A table of as many rows as there can be; each but the first two is a literal. */
static void judge(void)
{
    memset(rows, 0, sizeof rows);
    rows[BRINGUP_ROW_BYTES] = 1;
    for (size_t i = 2; i < BRINGUP_MOST_ROWS; i++) {
        rows[BRINGUP_ROW_BYTES * i] = 2;
        rows[BRINGUP_ROW_BYTES * i + 4] = 1;
    }
    bringup_judge(sheet, length, STEPS, rows, sizeof rows, BRINGUP_MOST_ROWS, 2, 0, masks, sizeof masks, answer, sizeof answer);
}

static void plan(void)
{
    bringup_plan(sheet, length, 300, rows, sizeof rows, schedule, sizeof schedule, answer, sizeof answer);
}

/* The bytes of the painted stack that the call changed, from the lowest one up. */
static size_t deepest(void (*call)(void))
{
    size_t untouched = 0;
    memset(stack, PAINT, DEPTH);
    getcontext(&there);
    there.uc_stack.ss_sp = stack;
    there.uc_stack.ss_size = DEPTH;
    there.uc_link = &back;
    makecontext(&there, call, 0);
    swapcontext(&back, &there);
    while (untouched < DEPTH && stack[untouched] == PAINT)
        untouched++;
    return DEPTH - untouched;
}

static int measure(const char *name, void (*call)(void), size_t enough)
{
    size_t most = 0;
    void (*const sheets[])(void) = {fighting_writes, all_settled};
    for (size_t i = 0; i < 2; i++) {
        sheets[i]();
        size_t used = deepest(call);
        if (used > most)
            most = used;
    }
    printf("%s: %zu bytes of stack, %zu are enough%s\n", name, most, enough, most > enough ? ": TOO DEEP" : "");
    return most > enough;
}

int main(void)
{
    stack = mmap(NULL, DEPTH, PROT_READ | PROT_WRITE, MAP_PRIVATE | MAP_ANONYMOUS, -1, 0);
    if (stack == MAP_FAILED)
        return 2;
    int deep = measure("check", check, UNDER_2_KIB);
    deep |= measure("run", run, UNDER_2_KIB);
    deep |= measure("run of writes", run_writes, UNDER_2_KIB);
    deep |= measure("judge", judge, BRINGUP_JUDGE_STACK);
    deep |= measure("compile", compile, BRINGUP_COMPILE_STACK);
    deep |= measure("plan", plan, BRINGUP_PLAN_STACK);
    return deep;
}
