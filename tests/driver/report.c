#include "report.h"

#include "random.h"
#include "tally.h"

#include <stdarg.h>
#include <stdio.h>
#include <stdlib.h>

static char asked[512];
static const uint8_t *asked_sheet;
static size_t asked_sheet_len;

void describe(const uint8_t *sheet, size_t len, const char *format, ...)
{
    va_list list;
    asked_sheet = sheet;
    asked_sheet_len = len;
    va_start(list, format);
    vsnprintf(asked, sizeof asked, format, list);
    va_end(list);
}

void print_hex(const char *name, const uint8_t *at, size_t len)
{
    printf("%s (%zu bytes):", name, len);
    for (size_t i = 0; i < len; i++)
        printf("%s%02x", i % 32 ? " " : "\n  ", at[i]);
    printf("\n");
}

void print_place(void)
{
    printf("DIFFERENCE in kind %s, case %llu, seed %llu, after %llu calls\n%s\n",
           kind->name, (unsigned long long)kind->cases,
           (unsigned long long)random_seed, (unsigned long long)calls_made, asked);
    print_hex("sheet", asked_sheet, asked_sheet_len);
}

void stop_with(const char *what)
{
    print_place();
    printf("%s\n", what);
    fflush(stdout);
    exit(1);
}
