#include "lent.h"

#include "random.h"
#include "report.h"

#include <stdio.h>
#include <stdlib.h>
#include <string.h>
#include <sys/mman.h>
#include <unistd.h>

enum {
    GUARD = 64,          /* random bytes beside a slice, compared after the call */
    LONGEST = MORE_ROWS * ROW + ROW - 1,
    FORBIDDEN = 1 << 20  /* bytes on each side of an arena, never read nor written */
};

/* Memory for one slice of the library, whose first or last byte is the arena's,
   so that a touch of the next byte outside is trapped. */
struct arena {
    uint8_t *begin, *end;
};

static struct arena arena[MOST_LENT];
static struct lent lent[MOST_LENT];
static size_t lent_count;

static _Noreturn void give_up(const char *why)
{
    fprintf(stderr, "%s\n", why);
    exit(2);
}

void map_arenas(void)
{
    size_t page = (size_t)sysconf(_SC_PAGESIZE);
    size_t size = (LONGEST + GUARD + page - 1) / page * page;
    for (int i = 0; i < MOST_LENT; i++) {
        uint8_t *base = mmap(NULL, size + 2 * FORBIDDEN, PROT_NONE,
                             MAP_PRIVATE | MAP_ANONYMOUS, -1, 0);
        if (base == MAP_FAILED
            || mprotect(base + FORBIDDEN, size, PROT_READ | PROT_WRITE))
            give_up("no memory to lend");
        arena[i].begin = base + FORBIDDEN;
        arena[i].end = arena[i].begin + size;
    }
}

/* Copies the slice to one end of its arena, with the guard on its open side. */
static void place_lib(struct lent *l, const struct arena *a)
{
    l->at_end = (int)below(2);
    if (l->at_end) {
        l->lib = a->end - l->len;
        memcpy(l->lib - GUARD, l->was - GUARD, GUARD + l->len);
    } else {
        l->lib = a->begin;
        memcpy(l->lib, l->was, l->len + GUARD);
    }
}

/* Content NULL means random bytes. */
static const struct lent *lend(const char *name, int written,
                               const uint8_t *content, size_t len)
{
    struct lent *l = &lent[lent_count];
    size_t all = len + 2 * GUARD, stride = all + 16 - all % 8;
    if (lent_count == MOST_LENT || len > LONGEST)
        give_up("lent too much");
    *l = (struct lent){.name = name, .written = written, .len = len};
    l->base = malloc(2 * stride + 8);
    if (!l->base)
        give_up("out of memory");
    l->was = l->base + below(8) + GUARD;
    l->ref = l->was + stride;
    if (content) {
        fill(l->was - GUARD, GUARD);
        memcpy(l->was, content, len);
        fill(l->was + len, GUARD);
    } else {
        fill(l->was - GUARD, all);
    }
    memcpy(l->ref - GUARD, l->was - GUARD, all);
    place_lib(l, &arena[lent_count++]);
    return l;
}

const struct lent *lend_input(const char *name, const uint8_t *content, size_t len)
{
    return lend(name, 0, content, len);
}

const struct lent *lend_output(const char *name, size_t len)
{
    return lend(name, 1, NULL, len);
}

static int guard_before_kept(const struct lent *l, const uint8_t *slice)
{
    return memcmp(slice - GUARD, l->was - GUARD, GUARD) == 0;
}

static int guard_after_kept(const struct lent *l, const uint8_t *slice)
{
    return memcmp(slice + l->len, l->was + l->len, GUARD) == 0;
}

/* Names the fault of one slice, or gives NULL. */
static const char *fault_of(const struct lent *l)
{
    if (!guard_before_kept(l, l->ref) || !guard_after_kept(l, l->ref))
        return "reference wrote outside";
    if (l->at_end ? !guard_before_kept(l, l->lib) : !guard_after_kept(l, l->lib))
        return "library wrote outside";
    if (!l->written && memcmp(l->ref, l->was, l->len))
        return "reference changed an input";
    if (!l->written && memcmp(l->lib, l->was, l->len))
        return "library changed an input";
    if (memcmp(l->lib, l->ref, l->len))
        return "contents differ";
    return NULL;
}

/* An input in full; of a written slice the part around the difference. */
static void print_lent(const struct lent *l, const char *fault)
{
    size_t first = 0, from = 0, len = l->len;
    if (!l->written)
        print_hex(l->name, l->was, l->len);
    while (first < l->len && l->lib[first] == l->ref[first])
        first++;
    if (len > 128 && first > 64)
        from = (first - 64) / ROW * ROW;
    if (len - from > 128)
        len = from + 128;
    if (fault)
        printf("%s: %s\n", l->name, fault);
    if (fault && first < l->len)
        printf("%s: first differing byte %zu of %zu\n", l->name, first, l->len);
    if (l->written && (fault || l->len <= 128)) {
        printf("%s from byte %zu\n", l->name, from);
        print_hex("  library", l->lib + from, len - from);
        print_hex("  reference", l->ref + from, len - from);
    }
}

void settle(enum op op, uint32_t lib, uint32_t ref)
{
    int bad = lib != ref;
    count_call(op, ref);
    for (size_t i = 0; i < lent_count; i++)
        bad |= fault_of(&lent[i]) != NULL;
    if (!bad)
        return;
    print_place();
    printf("code: library %u, reference %u\n", lib, ref);
    for (size_t i = 0; i < lent_count; i++)
        if (i > 0 || fault_of(&lent[i]))
            print_lent(&lent[i], fault_of(&lent[i]));
    fflush(stdout);
    exit(1);
}

void take_back(void)
{
    while (lent_count)
        free(lent[--lent_count].base);
}

void print_near(const void *address)
{
    uintptr_t at = (uintptr_t)address;
    int found = 0;
    for (size_t i = 0; i < lent_count; i++) {
        const struct lent *l = &lent[i];
        if (i > 0 && !l->written)
            print_hex(l->name, l->was, l->len);
        if (at < (uintptr_t)arena[i].begin - FORBIDDEN
            || at >= (uintptr_t)arena[i].end + FORBIDDEN)
            continue;
        found = 1;
        printf("%s: byte %lld of %zu\n", l->name,
               (long long)at - (long long)(uintptr_t)l->lib, l->len);
    }
    if (!found)
        printf("not near a lent slice, address %p\n", address);
}
