/* Plans the sheet on standard input with the greatest limits and prints the code, and the horizon if it is 0. */
#include <stdio.h>

#include "bringup.h"

static uint8_t sheet[433];
static uint8_t rows[BRINGUP_ROW_BYTES * BRINGUP_MOST_ROWS];

int main(void)
{
    uint8_t schedule[BRINGUP_MOST_STEPS], answer[BRINGUP_PLAN_BYTES];
    size_t length = fread(sheet, 1, sizeof sheet, stdin);
    uint32_t code = bringup_plan(sheet, length, UINT32_MAX, rows, sizeof rows, schedule, sizeof schedule, answer, sizeof answer);
    if (code == BRINGUP_ANSWERED)
        printf("0 %u\n", answer[4]);
    else
        printf("%lu\n", (unsigned long)code);
    return 0;
}
