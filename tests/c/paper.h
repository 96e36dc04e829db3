/* What document 01 says of a frame's records, the builder and the reply check, with changes 5 and 6 of document 02, in plain C and written
 * from the papers. The code under test carries no counters, so these branches are also what guides the fuzzer. paper_drive.h has format and
 * gate. */
#ifndef TESTS_PAPER_H
#define TESTS_PAPER_H
#include "hmac.h"
#include "need.h"

static inline uint64_t number(const uint8_t *at, int width)
{
    uint64_t x = 0;
    for (int i = 0; i < width; i++)
        x = x << 8 | at[i];
    return x;
}

static inline void put_number(uint8_t *at, int width, uint64_t x)
{
    for (int i = width - 1; i >= 0; i--, x >>= 8)
        at[i] = (uint8_t)x;
}

/* Change 6: "Rights bit 7, now allowed by row 4, marks a group credential." */
static inline int group_credential(const uint8_t *c) { return (number(c + 12, 2) & 0x80) != 0; }

/* "Its request has mark 4C 47 and the member's number in four more bytes at its end, so 32 bytes". */
static inline int group_request(const uint8_t *r) { return number(r, 2) == 0x4c47; }
static inline size_t request_length(const uint8_t *r) { return group_request(r) ? 32 : 28; }

/* "The frame is .. as long as its parts together": credential, request, n data bytes, 32 digest bytes. */
static inline size_t frame_length(const uint8_t *r, size_t n) { return 36 + request_length(r) + n + 32; }

static inline int paper_row_3(const uint8_t *c, const uint8_t *r)
{
    return number(c, 2) != 0x4c43 || (number(r, 2) != 0x4c52 && !group_request(r));
}

static inline int paper_row_4(const uint8_t *c, const uint8_t *r)
{
    if (c[2] > 3 || c[3] > 4 || number(c + 12, 2) > 0xff || c[14] > 2 || c[15] != 0)
        return 1;
    if (c[3] >= 3 && c[2] != 0)
        return 1;
    return r[2] < 1 || r[2] > 8 || r[3] > 2 || number(r + 24, 4) > 1048576;
}

/* Of the request alone; a frame must also be as long as its parts. */
static inline int paper_row_5(const uint8_t *r)
{
    return number(r + 24, 4) != (r[2] == 2 ? number(r + 20, 4) : r[2] == 7 ? 16 : r[2] == 8 ? 21 : 0);
}

/* Change 6: "Row 6 refuses operations over 3, object 0, and such a credential with a 4C 52 request or the reverse." */
static inline int group_misfits(const uint8_t *c, const uint8_t *r)
{
    if (group_credential(c) != group_request(r))
        return 1;
    return group_credential(c) && (r[2] > 3 || number(c + 4, 4) == 0);
}

/* Change 5: "Operation 8 (slot 2 ..; object, version, A and B 0 ..)". */
static inline int paper_row_6(const uint8_t *c, const uint8_t *r)
{
    uint64_t object = number(c + 4, 4), version = number(c + 8, 4), a = number(r + 16, 4), b = number(r + 20, 4);
    int slot = c[3], op = r[2];
    if (group_misfits(c, r))
        return 1;
    if (op <= 6 ? slot > 1 : slot < 2 || version != 0)
        return 1;
    if (op == 8 && (slot != 2 || object != 0 || a != 0 || b != 0))
        return 1;
    if ((op == 1 || op == 2 || op == 6) && object == 0)
        return 1;
    if ((op == 5 || op == 7) && object != 0)
        return 1;
    if ((op == 3 || op == 4 || op == 6) && (a != 0 || b != 0))
        return 1;
    if (op == 5 && (a == 0 || b == 0))
        return 1;
    return op == 7 && (b != 0 || a > (slot == 2 ? 1u : slot == 3 ? 3u : 0u));
}

/* "The level is under the credential's least", or under what the operation needs. */
static inline int paper_row_7(const uint8_t *c, const uint8_t *r, struct need n) { return r[3] < c[14] || r[3] < n.level; }

/* Change 5: "row 7 at the client end, keep document 01's rule". Change 6: a request of its form's length, "in rows 5 and 28 too". */
static inline int bad_records(const uint8_t *c, size_t c_len, const uint8_t *r, size_t r_len)
{
    if (c_len != 36 || r_len < 28 || r_len != request_length(r))
        return 1;
    return paper_row_3(c, r) || paper_row_4(c, r) || paper_row_5(r) || paper_row_6(c, r) ||
           paper_row_7(c, r, need_by_rule(r[2]));
}

static inline uint64_t paper_build(const uint8_t *c, size_t c_len, const uint8_t *r, size_t r_len, size_t n, size_t key_len,
                                   size_t space_len)
{
    if (key_len != 32)
        return 26;
    if (bad_records(c, c_len, r, r_len) || number(r + 24, 4) != n)
        return 28;
    return space_len < frame_length(r, n) ? 29 : 0;
}

/* The length of the result that good records call for. */
static inline uint32_t paper_result(const uint8_t *r)
{
    switch (r[2]) {
    case 1:
        return (uint32_t)number(r + 20, 4);
    case 3:
        return 8;
    case 4:
    case 5:
        return 4;
    default:
        return 0;
    }
}

/* HMAC over credential, request and further bytes. */
static inline void paper_digest(const uint8_t *key, const uint8_t *c, const uint8_t *r, const uint8_t *more, size_t n, uint8_t out[32])
{
    size_t records = 36 + request_length(r);
    uint8_t *all = malloc(records + n);
    if (!all)
        abort();
    memcpy(all, c, 36);
    memcpy(all + 36, r, records - 36);
    if (n)
        memcpy(all + records, more, n);
    test_hmac(key, 32, all, records + n, out);
    free(all);
}

/* Puts a right reply around the n result bytes that stand at reply + 8; its length. */
static inline size_t paper_reply(const uint8_t *key, const uint8_t *c, const uint8_t *r, uint8_t *reply, size_t n)
{
    put_number(reply, 2, 0x4c41);
    reply[2] = r[2];
    reply[3] = r[3];
    put_number(reply + 4, 4, n);
    if (r[3] != 2)
        return 8 + n;
    paper_digest(key, c, r, reply, 8 + n, reply + 8 + n);
    return 40 + n;
}

static inline uint64_t paper_check(const uint8_t *c, size_t c_len, const uint8_t *r, size_t r_len, const uint8_t *key, size_t key_len,
                            const uint8_t *reply, size_t reply_len)
{
    uint8_t digest[32];
    if (key_len != 32)
        return 26;
    if (bad_records(c, c_len, r, r_len) || paper_result(r) > 4194304)
        return 28;
    size_t n = paper_result(r);
    if (reply_len != 8 + n + (r[3] == 2 ? 32 : 0))
        return 30;
    if (number(reply, 2) != 0x4c41 || reply[2] != r[2] || reply[3] != r[3] || number(reply + 4, 4) != n)
        return 30;
    if (r[3] != 2)
        return 0;
    paper_digest(key, c, r, reply, 8 + n, digest);
    return memcmp(reply + 8 + n, digest, 32) ? 30 : 0;
}
#endif
