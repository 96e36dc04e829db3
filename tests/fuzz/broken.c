/* Wrong libraries, to see that the targets notice: linked with -Wl,--wrap, each spoils what the proved code gives. BROKEN_build or
 * BROKEN_check says which; the other call is passed on. */
#include "sievelast.h"
#include <string.h>

struct sievelast_built __real_sievelast_build(const uint8_t *, size_t, const uint8_t *, size_t, const uint8_t *, size_t, const uint8_t *,
                                              size_t, uint8_t *, size_t);
struct sievelast_checked __real_sievelast_check(const uint8_t *, size_t, const uint8_t *, size_t, const uint8_t *, size_t,
                                                const uint8_t *, size_t);
struct sievelast_built __wrap_sievelast_build(const uint8_t *, size_t, const uint8_t *, size_t, const uint8_t *, size_t, const uint8_t *,
                                              size_t, uint8_t *, size_t);
struct sievelast_checked __wrap_sievelast_check(const uint8_t *, size_t, const uint8_t *, size_t, const uint8_t *, size_t,
                                                const uint8_t *, size_t);

/* A byte past or before a space, written where no sanitizer looks. */
__attribute__((no_sanitize("address", "undefined"), unused)) static void spoil(uint8_t *at) { *(volatile uint8_t *)at = 1; }

#if BROKEN_build > 8 || BROKEN_check > 8
#include "broken_records.h"
#endif

/* Whether a request is operation 8's at level 0. */
__attribute__((unused)) static int low_load(const uint8_t *r, size_t r_len)
{
    return r_len == SIEVELAST_REQUEST_BYTES && r[2] == SIEVELAST_LOAD_TABLE && r[3] == 0;
}

/* The same at level 1. */
__attribute__((unused)) static const uint8_t *raised(const uint8_t *r)
{
    static uint8_t other[SIEVELAST_REQUEST_BYTES];
    memcpy(other, r, sizeof other);
    other[3] = 1;
    return other;
}

struct sievelast_built __wrap_sievelast_build(const uint8_t *c, size_t c_len, const uint8_t *r, size_t r_len, const uint8_t *d,
                                              size_t d_len, const uint8_t *k, size_t k_len, uint8_t *s, size_t s_len)
{
    struct sievelast_built b = __real_sievelast_build(c, c_len, r, r_len, d, d_len, k, k_len, s, s_len);
#if BROKEN_build == 1 /* one byte past the space */
    if (b.row == 0)
        spoil(s + s_len);
#elif BROKEN_build == 2 /* one byte before it */
    if (b.row == 0)
        spoil(s - 1);
#elif BROKEN_build == 3 /* a refusal writes */
    if (b.row == 29 && s_len)
        s[s_len - 1] = 0;
#elif BROKEN_build == 4 /* a wrong digest */
    if (b.row == 0)
        s[b.length - 1] ^= 1;
#elif BROKEN_build == 5 /* one row for another */
    if (b.row == 29)
        b.row = 28;
#elif BROKEN_build == 6 /* a const argument written */
    if (b.row == 0)
        spoil((uint8_t *)(uintptr_t)c);
#elif BROKEN_build == 7 /* no level asked of operation 8 */
    if (b.row == 28 && low_load(r, r_len))
        b = __real_sievelast_build(c, c_len, raised(r), r_len, d, d_len, k, k_len, s, s_len);
#elif BROKEN_build == 8 /* operation 8 not known */
    if (b.row == 0 && r[2] == 8)
        b.row = 28, b.length = 0, memset(s, 0xee, s_len);
#elif BROKEN_build > 8
    b = misgrouped_build(b, c, c_len, r, r_len, d, d_len, k, k_len, s, s_len);
#endif
    return b;
}

struct sievelast_checked __wrap_sievelast_check(const uint8_t *c, size_t c_len, const uint8_t *r, size_t r_len, const uint8_t *k,
                                                size_t k_len, const uint8_t *p, size_t p_len)
{
    struct sievelast_checked x = __real_sievelast_check(c, c_len, r, r_len, k, k_len, p, p_len);
#if BROKEN_check == 1 /* one byte too many */
    if (x.row == 0)
        x.length++;
#elif BROKEN_check == 2 /* a refusal that names a part */
    if (x.row == 30)
        x.start = 8;
#elif BROKEN_check == 3 /* a wrong reply believed */
    if (x.row == 30)
        x.row = 0;
#elif BROKEN_check == 4 /* a right one not */
    if (x.row == 0 && x.length)
        x.row = 30, x.start = x.length = 0;
#elif BROKEN_check == 5 /* one row for another */
    if (x.row == 26)
        x.row = 28;
#elif BROKEN_check == 6 /* a const argument written */
    if (x.row == 0)
        spoil((uint8_t *)(uintptr_t)p);
#elif BROKEN_check == 7 /* no level asked of operation 8 */
    if (x.row == 28 && low_load(r, r_len))
        x = __real_sievelast_check(c, c_len, raised(r), r_len, k, k_len, p, p_len);
#elif BROKEN_check == 8 /* operation 8 not known */
    if (x.row == 0 && r[2] == 8)
        x.row = 28, x.start = x.length = 0;
#elif BROKEN_check > 8
    x = misgrouped_check(x, c, c_len, r, r_len, k, k_len, p, p_len);
#endif
    return x;
}
