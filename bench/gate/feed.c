/* The other sides of bench/gate's ratios. Reads the records of standard input that gate_bench reads, into a space that the longest
 * fits in, with a medium of the same size set to zero first, and does with each frame what the word says:
 *
 *     read         nothing more
 *     ours N       the digests that the gate has to compute, by the crate `digest`, N times over
 *     libcrypto N  the same, by libcrypto
 *     copy N       of a read the bytes it asks for, copied N times from the medium to the reply; of a write its data, to the
 *                  medium
 *     lent         puts it to the gate of a freshly formatted drive whose record is lent (crate `store`), and prints in the end what
 *                  gate_bench prints
 *
 * The digests of a frame: the credential under its slot's key, what the frame's digest covers under the credential key, and at
 * level 2 as many bytes as the reply's digest covers. Operation 7 sets keys here too. It prints how many frames had the digest
 * that was computed. */
#define OPENSSL_SUPPRESS_DEPRECATED
#include "records.h"
#include "../libcrypto_hmac.h"
#include "sievelast_store.h"
#include <unistd.h>

uint32_t digest_hmac(const uint8_t *key, size_t key_length, const uint8_t *message, size_t message_length,
                     uint8_t *out, size_t out_length);
void digest_hmac3(const uint8_t *key, size_t key_length, const uint8_t *a, size_t a_length, const uint8_t *b,
                  size_t b_length, const uint8_t *c, size_t c_length, uint8_t *out, size_t out_length);

typedef void hmac_call(const uint8_t *key, const uint8_t *a, size_t a_length, const uint8_t *b, size_t b_length,
                       uint8_t *out);

enum { INPUT = HEAD + MOST_FRAME };

/* The input from `taken` up to `there` is still to be served; behind INPUT is room for a short frame that is taken for a longer one. */
static uint8_t input[INPUT + CREDENTIAL + REQUEST + DIGEST];
static size_t taken, there;
static uint8_t reply[8 + MOST_DATA + DIGEST], *medium;
static uint8_t keys[5][4][DIGEST];      /* by slot and partition */
static uint64_t calls, same, granted;
static struct sievelast_drive drive;
static int is_lent;                     /* whether frames are put to the gate */
static hmac_call *hmac;                 /* of two parts, one after the other; NULL where none is asked for */
static long times;                      /* that each work is done */

static void our_hmac(const uint8_t *key, const uint8_t *a, size_t a_length, const uint8_t *b, size_t b_length, uint8_t *out)
{
    if (b_length)
        digest_hmac3(key, DIGEST, a, a_length, b, b_length, b, 0, out, DIGEST);
    else
        digest_hmac(key, DIGEST, a, a_length, out, DIGEST);
}

/* Where operation 7 puts a new key: slot 4 the drive key, slot 3 partition A's, slot 2 working key A. */
static void set_key(const uint8_t *credential, const uint8_t *request, const uint8_t *key)
{
    static const int below[] = {0, 0, 0, 2, 3};
    int slot = credential[3] % 5, partition = credential[2] % 4;
    uint32_t a = (uint32_t)number(request + 16, 4) % 4;
    uint8_t made[DIGEST];
    hmac(key, request, REQUEST + 16, NULL, 0, made);
    memcpy(slot == 2 ? keys[a % 2][partition] : slot == 3 ? keys[2][a] : keys[below[slot]][0], made, DIGEST);
}

static size_t result_length(const uint8_t *request)
{
    static const size_t fixed[] = {0, 0, 0, 8, 4, 4, 0, 0};
    int operation = request[2] % 8;
    size_t b = (size_t)number(request + 20, 4);
    return operation == 1 ? b < MOST_DATA ? b : 0 : fixed[operation];
}

/* By its mark. */
static size_t request_length(const uint8_t *request)
{
    return number(request, 2) == 0x4c47 ? GROUP_REQUEST : REQUEST;
}

static void put_digests(const uint8_t *frame, size_t n)
{
    const uint8_t *request = frame + CREDENTIAL, *end = frame + n - DIGEST;
    const uint8_t *key = keys[frame[3] % 5][frame[2] % 4];
    uint8_t credential_key[DIGEST], digest[DIGEST];
    int level = request[3] % 4;
    size_t start = CREDENTIAL + request_length(request);
    hmac(key, frame, CREDENTIAL, NULL, 0, credential_key);
    hmac(credential_key, frame, level ? (size_t)(end - frame) : start, NULL, 0, digest);
    same += !memcmp(digest, end, DIGEST);
    if (request[2] == 7)
        set_key(frame, request, key);
    if (level == 2)
        hmac(credential_key, frame, start, reply, 8 + result_length(request), digest);
}

static void copy(const uint8_t *request, size_t n)
{
    size_t a = (size_t)number(request + 16, 4) % MOST_DATA;
    if (request[2] == 2)
        memcpy(medium + a, request + REQUEST, n - CREDENTIAL - REQUEST - DIGEST);
    else
        memcpy(reply + 8, medium + a, result_length(request));
    __asm__ volatile("" : : : "memory");
}

static void put_to_gate(const uint8_t *frame, size_t n, uint64_t clock)
{
    granted += !sievelast_gate(&drive, medium, MEDIUM, frame, n, clock, reply, sizeof reply).row;
}

static void serve(const uint8_t *frame, size_t n, uint64_t clock)
{
    calls++;
    if (is_lent)
        put_to_gate(frame, n, clock);
    if (n < CREDENTIAL + REQUEST + DIGEST)
        n = CREDENTIAL + REQUEST + DIGEST;
    for (long i = 0; i < times; i++)
        if (hmac)
            put_digests(frame, n);
        else
            copy(frame + CREDENTIAL, n);
}

/* Serves the records that are there whole. Returns whether what is left can be the start of one. */
static int serve_whole(void)
{
    while (there - taken >= HEAD) {
        const uint8_t *record = input + taken;
        size_t size = (size_t)number(record + 10, 4);
        if (number(record, 2) != 0x4c49 || size > MOST_FRAME)
            return 0;
        if (size > there - taken - HEAD)
            break;
        serve(record + HEAD, size, number(record + 2, 8));
        taken += HEAD + size;
    }
    return 1;
}

/* Reads on behind the rest of a record, which is moved to the front. Returns whether more came. */
static int read_on(void)
{
    size_t rest = there - taken;
    if (taken && rest)
        memmove(input, input + taken, rest);
    taken = 0;
    ssize_t got = read(0, input + rest, INPUT - rest);
    there = rest + (got > 0 ? (size_t)got : 0);
    return got > 0;
}

/* The drive that gate_bench formats. */
static void format(void)
{
    static const uint8_t master[DIGEST];
    if (sievelast_format(&drive, medium, MEDIUM, 1, master, DIGEST, keys[3][0], DIGEST))
        fail("not formatted");
}

int main(int count, char **words)
{
    const char *word = count > 1 ? words[1] : "read";
    is_lent = !strcmp(word, "lent");
    hmac = !strcmp(word, "ours") ? our_hmac : !strcmp(word, "libcrypto") ? libcrypto_hmac : NULL;
    times = count > 2 ? atol(words[2]) : 0;
    medium = malloc(MEDIUM);
    if (!medium)
        fail("no memory");
    memset(medium, 0, MEDIUM);
    memset(keys[3], 1, sizeof keys[3]);
    if (is_lent)
        format();
    while (read_on() && serve_whole())
        ;
    if (is_lent)
        printf("%llu granted, %llu refused\n", (unsigned long long)granted, (unsigned long long)(calls - granted));
    else
        printf("%llu frames, %llu digests\n", (unsigned long long)calls, (unsigned long long)same);
    return 0;
}
