/* A gate that is stopped in the middle of its first call: linked into the example store by --wrap=sievelast_gate_parts, it makes
 * every start of that server end so. Of what the call changed in the medium the second half is put back, half of each part of the
 * record is spoilt, and the process is killed. */
#include "parts.h"
#include <signal.h>
#include <stdlib.h>
#include <string.h>

#define SPOILT 0xee

struct sievelast_answered __real_sievelast_gate_parts(GATE_PARAMETERS);
struct sievelast_answered __wrap_sievelast_gate_parts(GATE_PARAMETERS);

/* The second half of the bytes that differ gets its old values. */
static void put_back_half(uint8_t *medium, const uint8_t *before, size_t n)
{
    size_t first = 0, end = n;
    while (first < end && medium[first] == before[first])
        first++;
    while (end > first && medium[end - 1] == before[end - 1])
        end--;
    size_t middle = first + (end - first) / 2;
    memcpy(medium + middle, before + middle, end - middle);
}

struct sievelast_answered __wrap_sievelast_gate_parts(GATE_PARAMETERS)
{
    uint8_t *before = malloc(medium_len);
    if (!before)
        abort();
    memcpy(before, medium, medium_len);
    struct sievelast_answered a = __real_sievelast_gate_parts(GATE_PASSED);
    put_back_half(medium, before, medium_len);
    memset(keys, SPOILT, SIEVELAST_RECORD_KEYS / 2);
    memset(tables, SPOILT, SIEVELAST_RECORD_TABLES / 2 * sizeof *tables);
    memset(lengths, SPOILT, SIEVELAST_MEMORIES / 2 * sizeof *lengths);
    raise(SIGKILL);
    return a;
}
