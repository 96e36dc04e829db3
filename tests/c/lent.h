/* Bytes lent to the library in memory of their own, so that a memory checker sees one byte too far; NULL for none. */
#ifndef TESTS_LENT_H
#define TESTS_LENT_H
#include <stdint.h>
#include <stdio.h>
#include <stdlib.h>

struct lent {
    uint8_t *block; /* what free takes */
    uint8_t *bytes; /* the bytes, which end where the block does; NULL where there are none */
    size_t length;
};

/* So many bytes, `offset` bytes from where malloc aligns. */
static inline struct lent lend(size_t length, size_t offset)
{
    struct lent l = {NULL, NULL, length};
    if (length == 0)
        return l;
    l.block = malloc(offset + length);
    if (!l.block) {
        fprintf(stderr, "no memory for %zu bytes\n", length);
        exit(2);
    }
    l.bytes = l.block + offset;
    return l;
}

static inline void give_back(struct lent *l)
{
    free(l->block);
    l->block = l->bytes = NULL;
    l->length = 0;
}
#endif
