#ifndef TRAP_H
#define TRAP_H

#include <signal.h>

/* Reads and writes at forbidden addresses, reported like a difference. */

enum side { DRIVER, LIBRARY, REFERENCE };

/* Whose code is running, set around every call. */
extern volatile sig_atomic_t running;

/* Traps in this thread from now on; the handler has a stack of its own. */
void set_trap(void);

#endif
