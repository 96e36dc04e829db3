/* Spaces lent to the code under test. It is compiled without sanitizers, so each space stands in pages of its own between two pages
 * that nobody may touch: at their end, where one byte too far faults, or at their start, where one byte before does. What is left of
 * the pages is filled with CANARY. Pages lent as const are read-only during the call. */
#ifndef FUZZ_LEND_H
#define FUZZ_LEND_H
#include <stdint.h>
#include <stdio.h>
#include <stdlib.h>
#include <string.h>
#include <sys/mman.h>

enum { PAGE = 4096, CANARY = 0xc5, FILL = 0xee };

struct area {
    uint8_t *pages;  /* the usable ones */
    size_t size;     /* their bytes */
    uint8_t *lent;   /* the space, `length` bytes */
    size_t length;
    uint8_t *given;  /* what the code was passed: lent, or NULL for a space of no bytes */
};

#define MUST(fact)                                                             \
    do {                                                                       \
        if (!(fact)) {                                                         \
            fprintf(stderr, "%s:%d: not so: %s\n", __FILE__, __LINE__, #fact); \
            abort();                                                           \
        }                                                                      \
    } while (0)

static inline size_t pages_for(size_t bytes) { return (bytes + PAGE - 1) / PAGE; }

static inline void area_make(struct area *a, size_t pages)
{
    a->size = pages * PAGE;
    uint8_t *all = mmap(NULL, a->size + 2 * PAGE, PROT_NONE, MAP_PRIVATE | MAP_ANONYMOUS, -1, 0);
    MUST(all != MAP_FAILED);
    a->pages = all + PAGE;
}

/* Lends `length` bytes, to be filled by the caller; then area_shut for a const space. */
static inline uint8_t *area_lend(struct area *a, size_t length, int at_start, int null_if_none)
{
    MUST(length <= a->size);
    MUST(mprotect(a->pages, a->size, PROT_READ | PROT_WRITE) == 0);
    memset(a->pages, CANARY, a->size);
    a->length = length;
    a->lent = at_start ? a->pages : a->pages + a->size - length;
    a->given = length == 0 && null_if_none ? NULL : a->lent;
    return a->lent;
}

static inline void area_shut(struct area *a) { MUST(mprotect(a->pages, a->size, PROT_READ) == 0); }

static inline int all_canary(const uint8_t *p, size_t n) { return n == 0 || (*p == CANARY && !memcmp(p, p + 1, n - 1)); }

/* No byte beside the space was written. */
static inline void area_intact(const struct area *a)
{
    size_t before = (size_t)(a->lent - a->pages);
    MUST(all_canary(a->pages, before));
    MUST(all_canary(a->lent + a->length, a->size - before - a->length));
}
#endif
