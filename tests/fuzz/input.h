/* How a fuzz input is read: twelve bytes that say how long things are and what is put right, then credential, request, key and the
 * rest, each lent in an area of its own. Bytes that the input lacks are 0.
 *
 *   0, 1, 2   length of credential, request, key: 0 is the right one (36, 28, 32), k is k - 1; of the request 33 is a group's, 32
 *   3, 4      length of the data or reply, modulo 2,048
 *   5         length of the builder's space: 0 is exactly the frame's; up to 127 more by that; from 128 on less by what is over 127
 *   6         put right: 1 both marks, 2 the data length in the request, 4 B of a write, 8 every field's values (of a request of 32
 *             bytes, a group's: rights bit 7, operations 1 to 3);
 *             16 spaces stand at the start of their pages, 32 NULL is passed for no bytes, 64 the key is lent from the credential's bytes
 *   7         the reply check: 1 the reply is the right one; 2 its result is as long as the request says, whatever 3 and 4 say
 *   8, 9, 10  the reply check: the byte at this place is changed by an exclusive or with the third
 *   11        the reply check: length of the reply, as 5 */
#ifndef FUZZ_INPUT_H
#define FUZZ_INPUT_H
#include "lend.h"
#include "paper.h"

enum { HEAD = 12, MOST = 2048 };

static struct area credential, request, key, rest, space;
static uint8_t head[HEAD];

static inline void areas_make(void)
{
    if (credential.pages)
        return;
    area_make(&credential, 1);
    area_make(&request, 1);
    area_make(&key, 1);
    area_make(&rest, 1);
    area_make(&space, 1);
}

static inline size_t length_of(uint8_t b, size_t right) { return b ? (size_t)b - 1 : right; }

static inline size_t about(uint8_t b, size_t right)
{
    if (b < 128)
        return right + b;
    return right < (size_t)b - 127 ? 0 : right - ((size_t)b - 127);
}

static inline void next(const uint8_t **at, size_t *left, uint8_t *to, size_t n)
{
    size_t have = n < *left ? n : *left;
    if (have)
        memcpy(to, *at, have);
    if (n > have)
        memset(to + have, 0, n - have);
    *at += have;
    *left -= have;
}

static inline void fill(struct area *a, size_t n, const uint8_t **at, size_t *left)
{
    area_lend(a, n, head[6] & 16, head[6] & 32);
    next(at, left, a->lent, n);
}

/* Whether the request is as long as a group's. */
static inline int is_group(void) { return request.length == 32; }

/* How long the frame is, whatever the request's mark. */
static inline size_t frame_bytes(void) { return (is_group() ? 100 : 96) + rest.length; }

/* Puts right what byte 6 says, where the records have their lengths. */
static inline void put_right(void)
{
    uint8_t *c = credential.lent, *r = request.lent;
    if (credential.length != 36 || (request.length != 28 && !is_group()))
        return;
    if (head[6] & 1) {
        put_number(c, 2, 0x4c43);
        put_number(r, 2, is_group() ? 0x4c47 : 0x4c52);
    }
    if (head[6] & 8) {
        c[2] &= 3, c[3] %= 5, c[12] = 0, c[13] &= 0x7f, c[14] %= 3, c[15] = 0;
        r[2] = (uint8_t)(r[2] % (is_group() ? 3 : 8) + 1), r[3] %= 3;
        c[13] |= is_group() ? 0x80 : 0;
    }
    if (head[6] & 2)
        put_number(r + 24, 4, rest.length);
    if (head[6] & 4)
        put_number(r + 20, 4, rest.length);
}

/* Reads an input; the areas are lent and still open. */
static inline void read_input(const uint8_t *at, size_t left)
{
    areas_make();
    next(&at, &left, head, HEAD);
    fill(&credential, length_of(head[0], 36), &at, &left);
    fill(&request, length_of(head[1], 28), &at, &left);
    fill(&key, length_of(head[2], 32), &at, &left);
    fill(&rest, (size_t)(head[3] << 8 | head[4]) % MOST, &at, &left);
    put_right();
}

/* The const arguments may overlap: the key is then the credential's first bytes. */
static inline const uint8_t *key_given(void)
{
    return head[6] & 64 && key.length && key.length <= credential.length ? credential.lent : key.given;
}
#endif
