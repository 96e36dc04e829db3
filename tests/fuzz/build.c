/* sievelast_build on any input: row, length and every byte of the space are document 01's; a refused call writes nothing; and a right
 * reply to a frame that was built is accepted. */
#include "sievelast.h"

#include "input.h"

/* A right reply to the request, its result the bytes of the key over and over. */
static void reply_accepted(const uint8_t *k)
{
    size_t n = paper_result(request.lent), all;
    if (n > MOST)
        return;
    area_lend(&rest, 8 + n + (request.lent[3] == 2 ? 32 : 0), head[6] & 16, 0);
    for (size_t i = 0; i < n; i++)
        rest.lent[8 + i] = k[i % 32];
    all = paper_reply(k, credential.lent, request.lent, rest.lent, n);
    area_shut(&rest);
    struct sievelast_checked c =
        sievelast_check(credential.given, credential.length, request.given, request.length, k, 32, rest.lent, all);
    MUST(c.row == 0 && c.start == 8 && c.length == n && c.start + c.length <= all);
}

static void frame_right(const uint8_t *k)
{
    uint8_t digest[32];
    size_t n = rest.length, records = 36 + request.length;
    MUST(!memcmp(space.lent, credential.lent, 36));
    MUST(!memcmp(space.lent + 36, request.lent, request.length));
    MUST(n == 0 || !memcmp(space.lent + records, rest.lent, n));
    test_hmac(k, 32, space.lent, records + (request.lent[3] ? n : 0), digest);
    MUST(!memcmp(space.lent + records + n, digest, 32));
}

int LLVMFuzzerTestOneInput(const uint8_t *bytes, size_t size);
int LLVMFuzzerTestOneInput(const uint8_t *bytes, size_t size)
{
    read_input(bytes, size);
    const uint8_t *k = key_given();
    area_lend(&space, about(head[5], frame_bytes()), head[6] & 16, head[6] & 32);
    memset(space.lent, FILL, space.length);
    area_shut(&credential), area_shut(&request), area_shut(&key), area_shut(&rest);
    struct sievelast_built b = sievelast_build(credential.given, credential.length, request.given, request.length, rest.given,
                                               rest.length, k, key.length, space.given, space.length);
    uint64_t row = paper_build(credential.lent, credential.length, request.lent, request.length, rest.length, key.length, space.length);
    MUST(b.row == row);
    MUST(b.length == (row ? 0 : frame_bytes()));
    MUST(b.length <= space.length);
    area_intact(&space);
    for (size_t i = b.length; i < space.length; i++)
        MUST(space.lent[i] == FILL);
    if (row == 0) {
        frame_right(k);
        reply_accepted(k);
    }
    return 0;
}
