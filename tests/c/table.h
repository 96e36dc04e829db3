/* A partition's table as the record has it: version, last version given, count of objects, a list each of their numbers, versions, sizes
 * and starts, which count from the quarter's start; then its operation table, the masks and least levels of operations 1 to 7. What a
 * test says of a table's numbers goes through here. */
#ifndef TESTS_TABLE_H
#define TESTS_TABLE_H
#include "need.h"
#include "sievelast_store.h"

enum {
    VERSION_AT,
    LAST_AT,
    COUNT_AT,
    NUMBERS_AT,
    VERSIONS_AT = NUMBERS_AT + SIEVELAST_MOST_OBJECTS,
    SIZES_AT = VERSIONS_AT + SIEVELAST_MOST_OBJECTS,
    STARTS_AT = SIZES_AT + SIEVELAST_MOST_OBJECTS,
    MASKS_AT = STARTS_AT + SIEVELAST_MOST_OBJECTS,
    LEVELS_AT = MASKS_AT + SIEVELAST_TABLE_OPERATIONS,
    TABLE_NUMBERS = LEVELS_AT + SIEVELAST_TABLE_OPERATIONS
};

static inline uint32_t *table_of(struct sievelast_drive *d, int partition) { return d->tables + partition * TABLE_NUMBERS; }

/* An object more, behind those that the table has; there is a place for it. */
static inline void add_object(uint32_t *t, uint32_t number, uint32_t version, uint32_t size, uint32_t start)
{
    uint32_t i = t[COUNT_AT]++;
    t[NUMBERS_AT + i] = number;
    t[VERSIONS_AT + i] = version;
    t[SIZES_AT + i] = size;
    t[STARTS_AT + i] = start;
}

/* What a table has for an operation from 1 to 7. */
static inline struct need need_at(const uint32_t *t, int operation)
{
    struct need n = {t[MASKS_AT + operation - 1], t[LEVELS_AT + operation - 1]};
    return n;
}

static inline void put_need(uint32_t *t, int operation, struct need n)
{
    t[MASKS_AT + operation - 1] = n.mask;
    t[LEVELS_AT + operation - 1] = n.level;
}
#endif
