/* sievelast_check on any input: row, start and length are document 01's; refused, start and length are 0; granted, the result lies
 * within the reply. */
#include "sievelast.h"

#include "input.h"

/* The reply: the input's own bytes, or the right ones; then one byte changed, and another length. */
static void a_reply(const uint8_t *k)
{
    static uint8_t made[8 + MOST + 32 + 128];
    size_t n = rest.length, all = n;
    memset(made, 0, sizeof made);
    memcpy(made, rest.lent, n);
    int formed = request.length >= 28 && request.length == request_length(request.lent);
    if (head[7] & 1 && credential.length == 36 && formed && key.length == 32) {
        if (head[7] & 2)
            n = paper_result(request.lent) % MOST;
        memmove(made + 8, made, n);
        all = paper_reply(k, credential.lent, request.lent, made, n);
    }
    made[(size_t)(head[8] << 8 | head[9]) % (all + 1)] ^= head[10];
    area_lend(&rest, about(head[11], all), head[6] & 16, head[6] & 32);
    memcpy(rest.lent, made, rest.length);
}

int LLVMFuzzerTestOneInput(const uint8_t *bytes, size_t size);
int LLVMFuzzerTestOneInput(const uint8_t *bytes, size_t size)
{
    read_input(bytes, size);
    const uint8_t *k = key_given();
    a_reply(k);
    area_shut(&credential), area_shut(&request), area_shut(&key), area_shut(&rest);
    struct sievelast_checked c = sievelast_check(credential.given, credential.length, request.given, request.length, k, key.length,
                                                 rest.given, rest.length);
    uint64_t row = paper_check(credential.lent, credential.length, request.lent, request.length, k, key.length, rest.lent, rest.length);
    MUST(c.row == row);
    if (row) {
        MUST(c.start == 0 && c.length == 0);
        return 0;
    }
    MUST(c.start == 8 && c.length == paper_result(request.lent));
    MUST(c.start + c.length <= rest.length);
    return 0;
}
