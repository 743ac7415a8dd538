/* Compares the library with the reference: compare SEED SECONDS [cap].
   "cap" adds one circuit past the greatest room, which takes longer. */

#include "kinds.h"
#include "lent.h"
#include "random.h"
#include "trap.h"

#include <pthread.h>
#include <stdio.h>
#include <stdlib.h>
#include <string.h>
#include <time.h>

/* Stack for both sides: the library needs 4 MiB of it in plan, a reference may
   need more, since it may recurse once for each of a sheet's variables. */
enum { THREAD_STACK = 64 << 20 };

static struct kind kinds[] = {
    {.name = "document", .share = 1, .one = kind_document},
    {.name = "check and run", .share = 2, .one = kind_check_run},
    {.name = "compile and judge", .share = 8, .one = kind_compile_judge},
    {.name = "judge tables", .share = 2, .one = kind_judge_tables},
    {.name = "plan", .share = 8, .one = kind_plan},
    {.name = "realistic", .share = 8, .one = kind_realistic},
    {.name = "damaged", .share = 2, .one = kind_damaged},
    {.name = "noise", .share = 1, .one = kind_noise},
    {.name = "one byte", .share = 1, .one = kind_one_byte},
    {.name = "brute plan", .share = 4, .one = kind_brute_plan},
    {.name = "brute judge", .share = 2, .one = kind_brute_judge},
    {.name = "large", .share = 2, .one = kind_large},
};

enum { KINDS = sizeof kinds / sizeof *kinds };

/* Takes longer than a short run has, so it runs only when asked for. */
static struct kind cap = {.name = "cap", .share = 1, .one = kind_cap};

static double now_seconds(void)
{
    struct timespec t;
    clock_gettime(CLOCK_MONOTONIC, &t);
    return (double)t.tv_sec + 1e-9 * (double)t.tv_nsec;
}

static double seconds_asked;
static int cap_asked;

/* One case, whose random numbers depend on seed, kind and case number alone. */
static void one_case(struct kind *next)
{
    kind = next;
    kind->cases++;
    seed_case(kind->name, kind->cases);
    kind->one();
}

/* The kind that has had the least time for its share; the first goes once. */
static struct kind *next_kind(void)
{
    int least = 1;
    if (kinds[0].cases == 0)
        return &kinds[0];
    for (int i = 2; i < KINDS; i++)
        if (kinds[i].had < kinds[least].had)
            least = i;
    return &kinds[least];
}

/* Not NULL if a code never came, so that the run did not try what it is to try. */
static void *compare_all(void *unused)
{
    double begin = now_seconds(), before = begin;
    (void)unused;
    set_trap();
    while (before - begin < seconds_asked) {
        one_case(next_kind());
        double after = now_seconds();
        kind->had += (after - before) / kind->share;
        before = after;
    }
    for (int i = 0; i < KINDS; i++)
        summarize(&kinds[i]);
    if (cap_asked) {
        one_case(&cap);
        summarize(&cap);
    }
    printf("%llu calls, 0 differences\n", (unsigned long long)calls_made);
    return print_missing(kinds, KINDS) ? kinds : NULL;
}

int main(int argc, char **argv)
{
    pthread_t thread;
    pthread_attr_t attr;
    if (argc < 3 || argc > 4 || (argc == 4 && strcmp(argv[3], "cap"))) {
        fprintf(stderr, "usage: compare SEED SECONDS [cap]\n");
        return 2;
    }
    random_seed = strtoull(argv[1], NULL, 0);
    seconds_asked = strtod(argv[2], NULL);
    cap_asked = argc == 4;
    map_arenas();
    pthread_attr_init(&attr);
    if (pthread_attr_setstacksize(&attr, THREAD_STACK)
        || pthread_create(&thread, &attr, compare_all, NULL)) {
        fprintf(stderr, "no thread\n");
        return 2;
    }
    void *missing;
    pthread_join(thread, &missing);
    return missing != NULL;
}
