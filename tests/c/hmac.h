/* SHA-256 and HMAC for the tests, written from FIPS 180-4 and RFC 2104 and sharing nothing with the code under test. */
#ifndef TESTS_HMAC_H
#define TESTS_HMAC_H
#include <stdint.h>
#include <stdlib.h>
#include <string.h>

static const uint32_t sha_k[64] = {
    0x428a2f98, 0x71374491, 0xb5c0fbcf, 0xe9b5dba5, 0x3956c25b, 0x59f111f1, 0x923f82a4, 0xab1c5ed5, 0xd807aa98, 0x12835b01,
    0x243185be, 0x550c7dc3, 0x72be5d74, 0x80deb1fe, 0x9bdc06a7, 0xc19bf174, 0xe49b69c1, 0xefbe4786, 0x0fc19dc6, 0x240ca1cc,
    0x2de92c6f, 0x4a7484aa, 0x5cb0a9dc, 0x76f988da, 0x983e5152, 0xa831c66d, 0xb00327c8, 0xbf597fc7, 0xc6e00bf3, 0xd5a79147,
    0x06ca6351, 0x14292967, 0x27b70a85, 0x2e1b2138, 0x4d2c6dfc, 0x53380d13, 0x650a7354, 0x766a0abb, 0x81c2c92e, 0x92722c85,
    0xa2bfe8a1, 0xa81a664b, 0xc24b8b70, 0xc76c51a3, 0xd192e819, 0xd6990624, 0xf40e3585, 0x106aa070, 0x19a4c116, 0x1e376c08,
    0x2748774c, 0x34b0bcb5, 0x391c0cb3, 0x4ed8aa4a, 0x5b9cca4f, 0x682e6ff3, 0x748f82ee, 0x78a5636f, 0x84c87814, 0x8cc70208,
    0x90befffa, 0xa4506ceb, 0xbef9a3f7, 0xc67178f2};

static uint32_t sha_rotr(uint32_t x, int n) { return x >> n | x << (32 - n); }

static void sha_block(uint32_t h[8], const uint8_t *b)
{
    uint32_t w[64], v[8];
    for (int t = 0; t < 16; t++)
        w[t] = (uint32_t)b[4 * t] << 24 | (uint32_t)b[4 * t + 1] << 16 | (uint32_t)b[4 * t + 2] << 8 | b[4 * t + 3];
    for (int t = 16; t < 64; t++)
        w[t] = (sha_rotr(w[t - 2], 17) ^ sha_rotr(w[t - 2], 19) ^ w[t - 2] >> 10) + w[t - 7] +
               (sha_rotr(w[t - 15], 7) ^ sha_rotr(w[t - 15], 18) ^ w[t - 15] >> 3) + w[t - 16];
    memcpy(v, h, sizeof v);
    for (int t = 0; t < 64; t++) {
        uint32_t a = v[7] + (sha_rotr(v[4], 6) ^ sha_rotr(v[4], 11) ^ sha_rotr(v[4], 25)) + ((v[4] & v[5]) ^ (~v[4] & v[6])) +
                     sha_k[t] + w[t];
        uint32_t c = (sha_rotr(v[0], 2) ^ sha_rotr(v[0], 13) ^ sha_rotr(v[0], 22)) +
                     ((v[0] & v[1]) ^ (v[0] & v[2]) ^ (v[1] & v[2]));
        memmove(v + 1, v, 7 * sizeof *v);
        v[4] += a;
        v[0] = a + c;
    }
    for (int i = 0; i < 8; i++)
        h[i] += v[i];
}

static inline void test_sha256(const uint8_t *m, size_t n, uint8_t out[32])
{
    uint32_t h[8] = {0x6a09e667, 0xbb67ae85, 0x3c6ef372, 0xa54ff53a, 0x510e527f, 0x9b05688c, 0x1f83d9ab, 0x5be0cd19};
    size_t blocks = (n + 8) / 64 + 1;
    uint8_t *p = calloc(blocks, 64);
    if (n)
        memcpy(p, m, n);
    p[n] = 0x80;
    for (int i = 0; i < 8; i++)
        p[blocks * 64 - 1 - i] = (uint8_t)((uint64_t)n * 8 >> 8 * i);
    for (size_t b = 0; b < blocks; b++)
        sha_block(h, p + 64 * b);
    free(p);
    for (int i = 0; i < 32; i++)
        out[i] = (uint8_t)(h[i / 4] >> (24 - 8 * (i % 4)));
}

/* A key of over 64 bytes counts as its digest. */
static inline void test_hmac(const uint8_t *key, size_t key_len, const uint8_t *m, size_t n, uint8_t out[32])
{
    uint8_t *inner = calloc(1, 64 + n), outer[96] = {0};
    if (key_len > 64)
        test_sha256(key, key_len, inner);
    else if (key_len)
        memcpy(inner, key, key_len);
    memcpy(outer, inner, 64);
    for (int i = 0; i < 64; i++) {
        inner[i] ^= 0x36;
        outer[i] ^= 0x5c;
    }
    if (n)
        memcpy(inner + 64, m, n);
    test_sha256(inner, 64 + n, outer + 64);
    test_sha256(outer, 96, out);
    free(inner);
}
#endif
