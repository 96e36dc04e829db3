/* What the bench programs share: the records of gate_bench's input, one behind the other as those of `gate`, with frames of up to
 * MOST_FRAME bytes; and big-endian numbers. */
#ifndef RECORDS_H
#define RECORDS_H
#include <stdint.h>
#include <stdio.h>
#include <stdlib.h>
#include <string.h>

enum {
    HEAD = 14,         /* of a record: mark, clock, frame length */
    MOST_FRAME = 1052658,
    CREDENTIAL = 36,
    REQUEST = 28,
    GROUP_REQUEST = 32, /* of a group credential */
    DIGEST = 32,
    MEDIUM = 4259840,  /* gate_bench's M */
    MOST_DATA = 1 << 20,
};

static inline void fail(const char *what)
{
    fprintf(stderr, "%s\n", what);
    exit(2);
}

static inline void put_number(uint8_t *at, int n, uint64_t x)
{
    for (int i = n - 1; i >= 0; i--, x >>= 8)
        at[i] = (uint8_t)x;
}

static inline uint64_t number(const uint8_t *at, int n)
{
    uint64_t x = 0;
    for (int i = 0; i < n; i++)
        x = x << 8 | at[i];
    return x;
}
#endif
