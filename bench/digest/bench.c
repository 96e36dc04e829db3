/* SHA-256 and HMAC of the crate `digest` against other libraries: with no word it compares every answer with libcrypto's, and
 * some with every library's; the exit status is 1 if one differs. With words, each a library's name, it measures these and
 * ours by turns, and prints a line for each digest, length and library: our MB/s, theirs, and the median and the quartiles
 * of the ratio of the two in a turn. The script `run` beside this file builds and runs it. */
#define OPENSSL_SUPPRESS_DEPRECATED
#include <bearssl.h>
#include <mbedtls/md.h>
#include <mbedtls/sha256.h>
#include <nettle/hmac.h>
#include <nettle/sha2.h>
#include <sodium.h>
#include <stdint.h>
#include <stdio.h>
#include <stdlib.h>
#include <string.h>
#include <time.h>
#include <openssl/evp.h>
#include <openssl/hmac.h>
#include <openssl/sha.h>
#include "../libcrypto_hmac.h"

/* What libdigest_c.a exports: a lent slice is a pointer and a length. */
uint32_t digest_sha256(const uint8_t *message, size_t message_length, uint8_t *out, size_t out_length);
uint32_t digest_hmac(const uint8_t *key, size_t key_length, const uint8_t *message, size_t message_length,
                     uint8_t *out, size_t out_length);
void digest_hmac3(const uint8_t *key, size_t key_length, const uint8_t *a, size_t a_length, const uint8_t *b,
                  size_t b_length, const uint8_t *c, size_t c_length, uint8_t *out, size_t out_length);

enum { DIGEST = 32, MOST = 1 << 24, LONGEST = 700, KEYS = 200, CUTS = 20, TURNS = 101, KEY = 32 };

static uint8_t *bytes; /* MOST + 1 bytes, made up once */
static int differences;

/* ---- the libraries, each by the calls that cost least. A key has 32 bytes. */

static void ours_sha256(const uint8_t *m, size_t n, uint8_t *out)
{
    digest_sha256(m, n, out, DIGEST);
}

static void ours_hmac(const uint8_t *key, const uint8_t *m, size_t n, uint8_t *out)
{
    digest_hmac(key, KEY, m, n, out, DIGEST);
}

static void crypto_sha256(const uint8_t *m, size_t n, uint8_t *out)
{
    SHA256_CTX c;
    SHA256_Init(&c);
    SHA256_Update(&c, m, n);
    SHA256_Final(out, &c);
}

static void crypto_hmac(const uint8_t *key, const uint8_t *m, size_t n, uint8_t *out)
{
    libcrypto_hmac(key, m, n, NULL, 0, out);
}

static void crypto_sha256_call(const uint8_t *m, size_t n, uint8_t *out)
{
    SHA256(m, n, out);
}

static void crypto_hmac_call(const uint8_t *key, const uint8_t *m, size_t n, uint8_t *out)
{
    HMAC(EVP_sha256(), key, KEY, m, n, out, NULL);
}

static void sodium_sha256(const uint8_t *m, size_t n, uint8_t *out)
{
    crypto_hash_sha256(out, m, n);
}

static void sodium_hmac(const uint8_t *key, const uint8_t *m, size_t n, uint8_t *out)
{
    crypto_auth_hmacsha256(out, m, n, key);
}

static void bear_sha256(const uint8_t *m, size_t n, uint8_t *out)
{
    br_sha256_context c;
    br_sha256_init(&c);
    br_sha256_update(&c, m, n);
    br_sha256_out(&c, out);
}

static void bear_hmac(const uint8_t *key, const uint8_t *m, size_t n, uint8_t *out)
{
    br_hmac_key_context k;
    br_hmac_context c;
    br_hmac_key_init(&k, &br_sha256_vtable, key, KEY);
    br_hmac_init(&c, &k, 0);
    br_hmac_update(&c, m, n);
    br_hmac_out(&c, out);
}

static void from_nettle_sha256(const uint8_t *m, size_t n, uint8_t *out)
{
    struct sha256_ctx c;
    sha256_init(&c);
    sha256_update(&c, n, m);
    sha256_digest(&c, DIGEST, out);
}

static void from_nettle_hmac(const uint8_t *key, const uint8_t *m, size_t n, uint8_t *out)
{
    struct hmac_sha256_ctx c;
    hmac_sha256_set_key(&c, KEY, key);
    hmac_sha256_update(&c, n, m);
    hmac_sha256_digest(&c, DIGEST, out);
}

static void mbed_sha256(const uint8_t *m, size_t n, uint8_t *out)
{
    mbedtls_sha256_ret(m, n, out, 0);
}

static void mbed_hmac(const uint8_t *key, const uint8_t *m, size_t n, uint8_t *out)
{
    mbedtls_md_hmac(mbedtls_md_info_from_type(MBEDTLS_MD_SHA256), key, KEY, m, n, out);
}

struct library {
    const char *name;
    void (*sha256)(const uint8_t *m, size_t n, uint8_t *out);
    void (*hmac)(const uint8_t *key, const uint8_t *m, size_t n, uint8_t *out);
};

static const struct library libraries[] = {
    {"ours", ours_sha256, ours_hmac},
    {"libcrypto", crypto_sha256, crypto_hmac},
    {"libcrypto-call", crypto_sha256_call, crypto_hmac_call},
    {"libsodium", sodium_sha256, sodium_hmac},
    {"BearSSL", bear_sha256, bear_hmac},
    {"nettle", from_nettle_sha256, from_nettle_hmac},
    {"mbedTLS", mbed_sha256, mbed_hmac},
};

enum { LIBRARIES = sizeof libraries / sizeof libraries[0] };

/* ---- the comparison */

static void make_bytes(void)
{
    bytes = malloc(MOST + 1);
    if (!bytes) {
        fprintf(stderr, "no memory\n");
        exit(2);
    }
    srand(1);
    for (size_t i = 0; i < MOST + 1; i++)
        bytes[i] = (uint8_t)(rand() >> 7);
}

static void expect(int holds, const char *what, size_t a, size_t b)
{
    if (!holds) {
        differences++;
        printf("differs: %s, %zu, %zu\n", what, a, b);
    }
}

static void their_hmac(const uint8_t *key, size_t key_length, const uint8_t *m, size_t n, uint8_t out[DIGEST])
{
    HMAC(EVP_sha256(), key, (int)key_length, m, n, out, NULL);
}

static void compare_sha256(const uint8_t *m, size_t n)
{
    uint8_t ours[DIGEST], theirs[DIGEST];
    uint32_t row = digest_sha256(m, n, ours, DIGEST);
    SHA256(m, n, theirs);
    expect(row == 0 && !memcmp(ours, theirs, DIGEST), "sha256, bytes", n, 0);
}

static void compare_hmac(const uint8_t *key, size_t key_length, const uint8_t *m, size_t n)
{
    uint8_t ours[DIGEST], theirs[DIGEST];
    uint32_t row = digest_hmac(key, key_length, m, n, ours, DIGEST);
    their_hmac(key, key_length, m, n, theirs);
    expect(row == 0 && !memcmp(ours, theirs, DIGEST), "hmac, bytes of key and message", key_length, n);
}

/* The message cut at two places, at random. */
static void compare_hmac3(const uint8_t *key, size_t key_length, const uint8_t *m, size_t n)
{
    uint8_t ours[DIGEST], theirs[DIGEST];
    size_t i = (size_t)rand() % (n + 1);
    size_t j = i + (size_t)rand() % (n - i + 1);
    digest_hmac3(key, key_length, m, i, m + i, j - i, m + j, n - j, ours, DIGEST);
    their_hmac(key, key_length, m, n, theirs);
    expect(!memcmp(ours, theirs, DIGEST), "hmac of three parts, cut at", i, j);
}

/* Row 27 and 32 zero bytes, for key or message of one byte more than the limit. */
static void compare_too_long(void)
{
    static const uint8_t zeros[DIGEST];
    uint8_t ours[DIGEST];
    memset(ours, 0xff, DIGEST);
    uint32_t row = digest_sha256(bytes, MOST + 1, ours, DIGEST);
    expect(row == 27 && !memcmp(ours, zeros, DIGEST), "sha256, row 27", MOST + 1, 0);
    memset(ours, 0xff, DIGEST);
    row = digest_hmac(bytes, 32, bytes, MOST + 1, ours, DIGEST);
    expect(row == 27 && !memcmp(ours, zeros, DIGEST), "hmac, row 27", 32, MOST + 1);
    memset(ours, 0xff, DIGEST);
    row = digest_hmac(bytes, MOST + 1, bytes, 32, ours, DIGEST);
    expect(row == 27 && !memcmp(ours, zeros, DIGEST), "hmac, row 27", MOST + 1, 32);
}

/* Every library against libcrypto, so that what is measured is the same. */
static void compare_libraries(size_t n)
{
    uint8_t a[DIGEST], b[DIGEST];
    for (int i = 0; i < LIBRARIES; i++) {
        libraries[i].sha256(bytes + 1, n, a);
        crypto_sha256(bytes + 1, n, b);
        expect(!memcmp(a, b, DIGEST), libraries[i].name, n, 0);
        libraries[i].hmac(bytes, bytes + 1, n, a);
        their_hmac(bytes, KEY, bytes + 1, n, b);
        expect(!memcmp(a, b, DIGEST), libraries[i].name, n, KEY);
    }
}

static void compare(void)
{
    for (size_t n = 0; n <= LONGEST; n++) {
        const uint8_t *m = bytes + n;
        compare_sha256(m, n);
        for (size_t k = 0; k < KEYS; k++)
            compare_hmac(bytes + 3, k, m, n);
        compare_libraries(n);
        for (int t = 0; t < CUTS; t++)
            compare_hmac3(bytes, (size_t)rand() % KEYS, m, n);
    }
    for (size_t n = MOST - 2; n <= MOST; n++) {
        compare_sha256(bytes, n);
        compare_hmac(bytes, 32, bytes, n);
        compare_hmac(bytes, n, bytes, 32);
    }
    compare_too_long();
    printf("compared: messages of 0 to %d bytes under keys of 0 to %d, cuts into three parts, the limit: "
           "%d differences\n", LONGEST, KEYS - 1, differences);
}

/* ---- the speed */

enum { MOST_MEASURED = LIBRARIES, LEAST_WORK = 1 << 20 };

static volatile uint8_t sink;

static double seconds(void)
{
    struct timespec t;
    clock_gettime(CLOCK_MONOTONIC, &t);
    return (double)t.tv_sec + 1e-9 * (double)t.tv_nsec;
}

static double timed(const struct library *l, int keyed, size_t n)
{
    int calls = (int)(LEAST_WORK / (n + 128)) + 1;
    uint8_t out[DIGEST];
    double start = seconds();
    for (int i = 0; i < calls; i++) {
        if (keyed)
            l->hmac(bytes, bytes + 64, n, out);
        else
            l->sha256(bytes + 64, n, out);
        sink = out[0];
    }
    return (seconds() - start) / calls;
}

static int ascending(const void *a, const void *b)
{
    double x = *(const double *)a, y = *(const double *)b;
    return (x > y) - (x < y);
}

static double sorted(double *a)
{
    qsort(a, TURNS, sizeof a[0], ascending);
    return a[TURNS / 2];
}

/* Ours and the chosen ones by turns, so that all meet the same machine. */
static void measure(const struct library **chosen, int count, int keyed, size_t n)
{
    static double time[MOST_MEASURED][TURNS], ratio[TURNS], ours[TURNS];
    for (int t = 0; t < TURNS; t++)
        for (int i = 0; i < count; i++)
            time[i][t] = timed(chosen[i], keyed, n);
    for (int i = 1; i < count; i++) {
        for (int t = 0; t < TURNS; t++)
            ratio[t] = time[i][t] / time[0][t];
        memcpy(ours, time[0], sizeof ours);
        double middle = sorted(ratio);
        printf("%s %zu %s %.1f %.1f %.3f %.3f %.3f\n", keyed ? "hmac" : "sha256", n, chosen[i]->name,
               (double)n / sorted(ours) / 1e6, (double)n / sorted(time[i]) / 1e6, middle, ratio[TURNS / 4],
               ratio[TURNS - 1 - TURNS / 4]);
    }
}

static const struct library *named(const char *name)
{
    for (int i = 0; i < LIBRARIES; i++)
        if (!strcmp(libraries[i].name, name))
            return &libraries[i];
    fprintf(stderr, "no library %s\n", name);
    exit(2);
}

int main(int count, char **words)
{
    static const size_t lengths[] = {64, 1024, 65536, 1 << 20};
    const struct library *chosen[MOST_MEASURED] = {&libraries[0]};
    make_bytes();
    if (count == 1) {
        compare();
        return differences != 0;
    }
    if (count > MOST_MEASURED)
        return 2;
    for (int i = 1; i < count; i++)
        chosen[i] = named(words[i]);
    for (int keyed = 0; keyed < 2; keyed++)
        for (size_t i = 0; i < sizeof lengths / sizeof lengths[0]; i++)
            measure(chosen, count, keyed, lengths[i]);
    return 0;
}
