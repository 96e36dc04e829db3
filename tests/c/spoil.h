/* A drive's record by its parts, and numbers of it spoiled. */
#ifndef TESTS_SPOIL_H
#define TESTS_SPOIL_H
#include "draft.h"
#include <stddef.h>

struct record_part {
    const char *name;
    size_t at, width, count; /* where it starts in the struct, bytes of a number, how many numbers */
    int in_row_1;            /* whether a record can be unsound by it */
};

#define RECORD_PART(name, field, numbers, in_row_1) \
    {name, offsetof(struct sievelast_drive, field), sizeof(((struct sievelast_drive *)0)->field) / (numbers), numbers, in_row_1}

/* In the order in which sievelast_format_parts takes them. */
static const struct record_part record_parts[] = {
    RECORD_PART("size", size, 1, 1),
    RECORD_PART("mark", highwater, 1, 0),
    RECORD_PART("keys", keys, SIEVELAST_RECORD_KEYS, 0),
    RECORD_PART("tables", tables, SIEVELAST_RECORD_TABLES, 1),
    RECORD_PART("lengths", lengths, SIEVELAST_MEMORIES, 1),
    RECORD_PART("entries", entries, SIEVELAST_RECORD_ENTRIES, 0),
    RECORD_PART("times", times, SIEVELAST_RECORD_PLACES, 0),
};
enum { RECORD_PARTS = sizeof record_parts / sizeof *record_parts, SPOIL_WAYS = 16 };

/* A value that a rule may turn on, from the number x that is there and a medium of `size` bytes. */
static inline uint64_t spoilt(uint64_t x, uint64_t size, uint32_t way, struct choices *s)
{
    uint64_t bit = (uint64_t)1 << choose(s, 64), any = choose_number(s, 8);
    const uint64_t values[SPOIL_WAYS] = {x + 1,
                                         x - 1,
                                         0,
                                         1,
                                         UINT64_MAX,
                                         x ^ bit,
                                         SIEVELAST_MOST_OBJECTS,
                                         SIEVELAST_MOST_OBJECTS + 1,
                                         SIEVELAST_MOST_ENTRIES,
                                         SIEVELAST_MOST_ENTRIES + 1,
                                         size / 4,
                                         size / 4 + 1,
                                         SIEVELAST_MOST_MEDIUM_BYTES,
                                         SIEVELAST_MOST_MEDIUM_BYTES + 1,
                                         size / 2,
                                         any};
    return values[way % SPOIL_WAYS];
}

/* Spoils number i of a part, and gives what it became; x86-64 has the lowest byte first. */
static inline uint64_t spoil_number(struct sievelast_drive *d, const struct record_part *p, size_t i, uint32_t way, struct choices *s)
{
    uint8_t *at = (uint8_t *)d + p->at + i * p->width;
    uint64_t x = 0;
    memcpy(&x, at, p->width);
    x = spoilt(x, d->size, way, s);
    memcpy(at, &x, p->width);
    return x;
}
#endif
