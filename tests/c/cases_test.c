/* Plays a file of cases for the issuer, the builder and the reply check (tests/model/src/bin/cases.rs has its layout) against the
 * archives that it is linked with, and compares row, start, length, key and every byte lent.
 *
 *   cases_test FILE        the last line is 'N cases, 0 differences' */
#include <inttypes.h>
#include <stdio.h>
#include <stdlib.h>
#include <string.h>

#include "sievelast.h"
#include "sievelast_store.h"

static uint32_t four(const uint8_t *p)
{
    return (uint32_t)p[0] << 24 | (uint32_t)p[1] << 16 | (uint32_t)p[2] << 8 | p[3];
}

/* A part of the file in memory of exactly its own length, so that a memory checker sees one byte too far; NULL for none. */
static uint8_t *part(FILE *file, uint32_t length)
{
    uint8_t *bytes = length ? malloc(length) : NULL;
    if (length && (!bytes || fread(bytes, 1, length, file) != length)) {
        fprintf(stderr, "cases_test: the file ends in a case, or there is no memory\n");
        exit(2);
    }
    return bytes;
}

/* A copy, or NULL for none. */
static uint8_t *copy(const uint8_t *from, uint32_t length)
{
    uint8_t *bytes = length ? malloc(length) : NULL;
    if (length && !bytes)
        exit(2);
    if (length)
        memcpy(bytes, from, length);
    return bytes;
}

static int same(const uint8_t *one, const uint8_t *other, size_t length)
{
    return length == 0 || memcmp(one, other, length) == 0;
}

/* A space of so many bytes, each the fill; NULL for none. */
static uint8_t *filled(uint32_t length, uint8_t fill)
{
    uint8_t *bytes = length ? malloc(length) : NULL;
    if (length && !bytes)
        exit(2);
    if (length)
        memset(bytes, fill, length);
    return bytes;
}

/* Does the space hold these bytes first, and behind them the fill alone? */
static int holds(const uint8_t *space, uint32_t space_len, const uint8_t *bytes, uint64_t length, uint8_t fill)
{
    if (length > space_len || !same(space, bytes, length))
        return 0;
    for (size_t i = length; i < space_len; i++)
        if (space[i] != fill)
            return 0;
    return 1;
}

/* A credential's fields, by the layout of document 01; the tests of the decoder are elsewhere. */
static struct sievelast_credential fields(const uint8_t *p)
{
    struct sievelast_credential c;
    c.partition = p[2];
    c.slot = p[3];
    c.object = four(p + 4);
    c.version = four(p + 8);
    c.rights = (uint16_t)(p[12] << 8 | p[13]);
    c.least = p[14];
    c.first = four(p + 16);
    c.end = four(p + 20);
    c.expiry = (uint64_t)four(p + 24) << 32 | four(p + 28);
    c.holder = four(p + 32);
    return c;
}

int main(int argc, char **argv)
{
    FILE *file = argc == 2 ? fopen(argv[1], "rb") : NULL;
    uint8_t head[40];
    unsigned long cases = 0, differences = 0;
    size_t got;
    if (!file) {
        fprintf(stderr, "usage: cases_test FILE\n");
        return 2;
    }
    while ((got = fread(head, 1, sizeof head, file)) == sizeof head) {
        uint32_t lengths[4], space_len = four(head + 20);
        uint64_t row = four(head + 24), start = four(head + 28), length = four(head + 32);
        uint8_t *parts[4], *kept[4];
        int wrong = 0;
        for (int i = 0; i < 4; i++) {
            lengths[i] = four(head + 4 + 4 * i);
            parts[i] = part(file, lengths[i]);
            kept[i] = copy(parts[i], lengths[i]);
        }
        cases++;
        if (head[0] == 'B') {
            uint8_t *frame = part(file, (uint32_t)length), *space = filled(space_len, head[1]);
            struct sievelast_built b = sievelast_build(parts[0], lengths[0], parts[1], lengths[1], parts[3], lengths[3], parts[2],
                                                       lengths[2], space, space_len);
            wrong = b.row != row || b.length != length || !holds(space, space_len, frame, length, head[1]);
            if (wrong)
                printf("case %lu: build gives row %" PRIu64 ", length %" PRIu64 "; expected %" PRIu64 ", %" PRIu64 "\n", cases,
                       b.row, b.length, row, length);
            free(space);
            free(frame);
        } else if (head[0] == 'I') {
            uint8_t *credential = part(file, (uint32_t)length), *space = filled(space_len, head[1]);
            struct sievelast_issued i = sievelast_issue(fields(parts[0]), parts[2], lengths[2], space, space_len);
            wrong = i.row != row || !same(i.key, parts[3], sizeof i.key) || !holds(space, space_len, credential, length, head[1]);
            if (wrong)
                printf("case %lu: issue gives row %" PRIu64 "; expected %" PRIu64 "; or key or space differ\n", cases, i.row, row);
            free(space);
            free(credential);
        } else {
            struct sievelast_checked c =
                sievelast_check(parts[0], lengths[0], parts[1], lengths[1], parts[2], lengths[2], parts[3], lengths[3]);
            wrong = c.row != row || c.start != start || c.length != length;
            if (wrong)
                printf("case %lu: check gives row %" PRIu64 ", start %" PRIu64 ", length %" PRIu64 "; expected %" PRIu64 ", %" PRIu64
                       ", %" PRIu64 "\n",
                       cases, c.row, c.start, c.length, row, start, length);
        }
        for (int i = 0; i < 4; i++) {
            if (!same(parts[i], kept[i], lengths[i])) {
                printf("case %lu: an argument that is only read was written\n", cases);
                wrong = 1;
            }
            free(parts[i]);
            free(kept[i]);
        }
        differences += wrong != 0;
    }
    if (got != 0) {
        fprintf(stderr, "cases_test: the file ends in a head\n");
        return 2;
    }
    fclose(file);
    printf("%lu cases, %lu differences\n", cases, differences);
    return cases == 0 || differences != 0;
}
