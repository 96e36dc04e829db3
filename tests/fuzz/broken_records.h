/* Wrong builders and reply checks of a group's records (change 6), for broken.c: 9 and 10 spoil what the proved code gives, 11 to 16 take
 * records for good that are none, 17 asks the builder for too little space. */
#ifndef FUZZ_BROKEN_RECORDS_H
#define FUZZ_BROKEN_RECORDS_H
#include "paper.h"

#if defined BROKEN_build
#define KIND BROKEN_build
#else
#define KIND BROKEN_check
#endif

/* Records that the proved code takes, in the place of those that a wrong one takes for good. */
struct records {
    int taken;
    uint8_t c[SIEVELAST_CREDENTIAL_BYTES], r[SIEVELAST_GROUP_REQUEST_BYTES];
    size_t r_len;
};

static struct records taken_for_good(const uint8_t *c, size_t c_len, const uint8_t *r, size_t r_len)
{
    struct records t = {.r_len = r_len};
    if (c_len != sizeof t.c || (r_len != SIEVELAST_REQUEST_BYTES && r_len != SIEVELAST_GROUP_REQUEST_BYTES))
        return t;
    int bit = group_credential(c), mark = group_request(r), is_long = r_len == SIEVELAST_GROUP_REQUEST_BYTES;
    memcpy(t.c, c, c_len);
    memcpy(t.r, r, r_len);
    switch (KIND) {
    case 11: /* 28 bytes with mark 4C 47 */
        t.taken = mark && !is_long, t.c[13] &= 0x7f, t.r[1] = 0x52;
        break;
    case 12: /* 32 bytes with mark 4C 52 */
        t.taken = !mark && is_long, t.c[13] &= 0x7f, t.r_len = SIEVELAST_REQUEST_BYTES;
        break;
    case 13: /* bit 7 with a 4C 52 request */
        t.taken = bit && !mark && !is_long, t.c[13] &= 0x7f;
        break;
    case 14: /* a 4C 47 request without bit 7 */
        t.taken = !bit && mark && is_long, t.c[13] |= 0x80;
        break;
    case 15: /* an operation over 3 */
        t.taken = bit && mark && is_long && r[2] == SIEVELAST_RAISE, t.r[2] = SIEVELAST_LOOK;
        break;
    case 16: /* object 0 */
        t.taken = bit && mark && is_long && number(c + 4, 4) == 0, t.c[7] = 1;
        break;
    default:
        break;
    }
    return t;
}

/* HMAC over credential, request without the member's number, and further bytes. */
static void short_digest(const uint8_t *k, const uint8_t *c, const uint8_t *r, const uint8_t *more, size_t n, uint8_t *out)
{
    uint8_t *all = malloc(SIEVELAST_CREDENTIAL_BYTES + SIEVELAST_REQUEST_BYTES + n), *behind = all + SIEVELAST_CREDENTIAL_BYTES;
    if (!all)
        abort();
    memcpy(all, c, SIEVELAST_CREDENTIAL_BYTES);
    memcpy(behind, r, SIEVELAST_REQUEST_BYTES);
    if (n)
        memcpy(behind + SIEVELAST_REQUEST_BYTES, more, n);
    test_hmac(k, SIEVELAST_KEY_BYTES, all, SIEVELAST_CREDENTIAL_BYTES + SIEVELAST_REQUEST_BYTES + n, out);
    free(all);
}

#if defined BROKEN_build
static struct sievelast_built misgrouped_build(struct sievelast_built b, const uint8_t *c, size_t c_len, const uint8_t *r, size_t r_len,
                                               const uint8_t *d, size_t d_len, const uint8_t *k, size_t k_len, uint8_t *s, size_t s_len)
{
    struct records t = taken_for_good(c, c_len, r, r_len);
    int is_long = r_len == SIEVELAST_GROUP_REQUEST_BYTES;
    if (KIND == 9 && b.row == 0 && is_long) /* a group's request not known */
        b.row = 28, b.length = 0, memset(s, 0xee, s_len);
    if (KIND == 10 && b.row == 0 && is_long) /* the digest without the member */
        short_digest(k, c, r, d, r[3] ? d_len : 0, s + b.length - SIEVELAST_DIGEST_BYTES);
    if (b.row == 28 && t.taken)
        b = __real_sievelast_build(t.c, sizeof t.c, t.r, t.r_len, d, d_len, k, k_len, s, s_len);
    if (KIND == 17 && b.row == 29 && is_long && s_len >= SIEVELAST_LEAST_FRAME_BYTES + d_len) /* 96 bytes and the data are enough */
        b.row = 0, b.length = s_len;
    return b;
}
#else
static struct sievelast_checked misgrouped_check(struct sievelast_checked x, const uint8_t *c, size_t c_len, const uint8_t *r,
                                                 size_t r_len, const uint8_t *k, size_t k_len, const uint8_t *p, size_t p_len)
{
    struct records t = taken_for_good(c, c_len, r, r_len);
    uint8_t digest[SIEVELAST_DIGEST_BYTES];
    int is_long = r_len == SIEVELAST_GROUP_REQUEST_BYTES;
    if (KIND == 9 && x.row == 0 && is_long) /* a group's request not known */
        x.row = 28, x.start = x.length = 0;
    if (KIND == 10 && x.row == 0 && is_long && r[3] == SIEVELAST_LEVEL_REPLY) { /* the digest without the member */
        short_digest(k, c, r, p, p_len - sizeof digest, digest);
        if (memcmp(digest, p + p_len - sizeof digest, sizeof digest))
            x.row = 30, x.start = x.length = 0;
    }
    if (x.row == 28 && t.taken)
        x = __real_sievelast_check(t.c, sizeof t.c, t.r, t.r_len, k, k_len, p, p_len);
    return x;
}
#endif
#endif
