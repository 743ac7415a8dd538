#include "tally.h"

#include <stdio.h>

struct kind *kind;
uint64_t calls_made;

static const char *const op_name[OPS] = {"check", "run", "compile", "judge", "plan"};

void count_call(enum op op, uint32_t code)
{
    calls_made++;
    kind->calls++;
    if (code < CODES)
        kind->code[op][code]++;
}

void count_length(uint32_t length)
{
    if (length < LENGTHS)
        kind->length[length]++;
}

/* How often each code came from one operation. */
static void summarize_codes(enum op op, const uint64_t *times)
{
    int named = 0;
    for (int code = 0; code < CODES; code++) {
        if (!times[code])
            continue;
        if (!named++)
            printf(", %s", op_name[op]);
        printf(" %d:%llu", code, (unsigned long long)times[code]);
    }
}

/* How many schedules of each length came from plan. */
static void summarize_lengths(const uint64_t *length)
{
    int named = 0;
    for (int n = 0; n < LENGTHS; n++) {
        if (!length[n])
            continue;
        if (!named++)
            printf(", schedules of length");
        printf(" %d:%llu", n, (unsigned long long)length[n]);
    }
}

void summarize(const struct kind *k)
{
    printf("%s: %llu cases, %llu calls", k->name, (unsigned long long)k->cases,
           (unsigned long long)k->calls);
    for (int op = 0; op < OPS; op++)
        summarize_codes((enum op)op, k->code[op]);
    summarize_lengths(k->length);
    if (k->brute)
        printf(", %llu brute runs", (unsigned long long)k->brute);
    if (k->skipped)
        printf(", %llu skipped", (unsigned long long)k->skipped);
    printf(", 0 differences\n");
}

/* The codes that the document lets each operation give, bit c for code c. */
static const uint32_t permitted[OPS] = {
    [CHECK] = 0x05f, [RUN] = 0x41f, [COMPILE] = 0x59f, [JUDGE] = 0xc1f, [PLAN] = 0x3ff,
};

static uint64_t times_given(const struct kind *kinds, int count, int op, int code)
{
    uint64_t times = 0;
    for (int i = 0; i < count; i++)
        times += kinds[i].code[op][code];
    return times;
}

int print_missing(const struct kind *kinds, int count)
{
    int missing = 0;
    for (int op = 0; op < OPS; op++)
        for (int code = 0; code < CODES; code++)
            if (permitted[op] >> code & 1 && !times_given(kinds, count, op, code)) {
                printf("%s never gave %d\n", op_name[op], code);
                missing++;
            }
    return missing;
}
