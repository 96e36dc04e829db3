/* HMAC-SHA-256 under a key of 32 bytes, over a and then b, by RFC 2104 on libcrypto's plain SHA-256 calls. Its own HMAC calls look
 * the digest up by name each time, which for a short message takes longer than the digest. */
#include <openssl/sha.h>
#include <stddef.h>
#include <stdint.h>
#include <string.h>

static void libcrypto_hmac(const uint8_t *key, const uint8_t *a, size_t a_length, const uint8_t *b, size_t b_length,
                           uint8_t *out)
{
    uint8_t pad[SHA256_CBLOCK], inner[SHA256_DIGEST_LENGTH];
    SHA256_CTX c;
    memset(pad, 0x36, sizeof pad);
    for (int i = 0; i < 32; i++)
        pad[i] ^= key[i];
    SHA256_Init(&c);
    SHA256_Update(&c, pad, sizeof pad);
    SHA256_Update(&c, a, a_length);
    if (b_length)
        SHA256_Update(&c, b, b_length);
    SHA256_Final(inner, &c);
    for (size_t i = 0; i < sizeof pad; i++)
        pad[i] ^= 0x36 ^ 0x5c;
    SHA256_Init(&c);
    SHA256_Update(&c, pad, sizeof pad);
    SHA256_Update(&c, inner, sizeof inner);
    SHA256_Final(out, &c);
}
