#include "trap.h"

#include "lent.h"
#include "report.h"

#include <stdio.h>
#include <stdlib.h>
#include <unistd.h>

volatile sig_atomic_t running = DRIVER;

/* Prints although in a handler, since neither side prints or comes back. */
static void trapped(int number, siginfo_t *info, void *context)
{
    static const char *const name[] = {"driver", "library", "reference"};
    (void)context;
    print_place();
    printf("%s read or wrote outside the lent slices, signal %d\n", name[running],
           number);
    print_near(info->si_addr);
    fflush(stdout);
    _exit(1);
}

void set_trap(void)
{
    static uint8_t stack[1 << 16];
    stack_t own = {.ss_sp = stack, .ss_size = sizeof stack};
    struct sigaction action = {.sa_sigaction = trapped};
    action.sa_flags = SA_SIGINFO | SA_ONSTACK;
    sigemptyset(&action.sa_mask);
    if (sigaltstack(&own, NULL) || sigaction(SIGSEGV, &action, NULL)
        || sigaction(SIGBUS, &action, NULL)) {
        fprintf(stderr, "no trap\n");
        exit(2);
    }
}
