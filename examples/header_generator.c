/* Plans the sheet on standard input and prints a C header with its write sequence: header_generator NAME < SHEET > NAME.h
 * The exit status is the code of the answer; without a plan standard error says why. */
#include <stdio.h>
#include <stdlib.h>

#include "bringup.h"

/* The longest sheet is 432 bytes; one byte more tells longer input apart, and the library refuses it. */
static uint8_t sheet[433];
static uint8_t rows[BRINGUP_ROW_BYTES * BRINGUP_MOST_ROWS];

/* Number i of an answer. */
static unsigned long number(const uint8_t *answer, int i)
{
    const uint8_t *b = answer + 4 * i;
    return b[0] + 256UL * b[1] + 65536UL * b[2] + 16777216UL * b[3];
}

static const char *reason(uint32_t code)
{
    static const char *const reasons[] = {
        "answered", "it is under 16 bytes or its mark is wrong", "a count is outside its bounds", "its length disagrees with its counts",
        "a row of it is bad", "the schedule buffer is short", "no state is a start", "the effort is above the limit",
        "there is no room for the rows", "no sequence up to its horizon works from every start",
    };
    return code < sizeof reasons / sizeof *reasons ? reasons[code] : "the call is bad";
}

static void print_header(const char *name, const uint8_t *schedule, unsigned long steps, unsigned long starts)
{
    printf("/* %s: %lu writes that reach the wanted state from each of %lu possible starts; no shorter sequence does. */\n", name, steps, starts);
    printf("#define %s_WRITES %lu\n", name, steps);
    /* C has no empty array, so a sequence without a write has one entry that is not counted. */
    printf("static const unsigned char %s_sequence[%lu] = {", name, steps ? steps : 1);
    for (unsigned long i = 0; i < steps; i++)
        printf(i ? ", %u" : "%u", schedule[i]);
    puts(steps ? "};" : "0};");
}

int main(int argc, char **argv)
{
    uint8_t schedule[BRINGUP_MOST_STEPS], planned[BRINGUP_PLAN_BYTES], checked[BRINGUP_CHECK_BYTES];
    if (argc != 2) {
        fputs("usage: header_generator NAME < SHEET > NAME.h\n", stderr);
        return 64;
    }
    size_t n = fread(sheet, 1, sizeof sheet, stdin);
    uint32_t code = bringup_plan(sheet, n, 1000000, rows, sizeof rows, schedule, sizeof schedule, planned, sizeof planned);
    if (code != BRINGUP_ANSWERED) {
        fprintf(stderr, "%s: no header for this sheet: %s (code %lu, place %lu)\n", argv[1], reason(code), (unsigned long)code, number(planned, 0));
        return (int)code;
    }
    bringup_check(sheet, n, checked, sizeof checked);
    print_header(argv[1], schedule, number(planned, 1), number(checked, 1));
    return 0;
}
