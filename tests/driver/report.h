#ifndef REPORT_H
#define REPORT_H

#include <stddef.h>
#include <stdint.h>

/* What to print when a difference is found. */

/* Keeps the sheet and the call's numbers for a report; the sheet must stay. */
__attribute__((format(printf, 3, 4)))
void describe(const uint8_t *sheet, size_t len, const char *format, ...);

void print_hex(const char *name, const uint8_t *at, size_t len);

/* Prints kind, case, seed and the call described last. */
void print_place(void);

_Noreturn void stop_with(const char *what);

#endif
