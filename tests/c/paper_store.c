/* Document 01's format and gate (paper_drive.h) in the archive's place, to test the tests: store_replay linked with this must print
 * what the model in Rust expects, so that what store_test and the fuzzer compare with is right. */
#include "paper_drive.h"
#include "parts.h"

/* Copies a record's parts into a record, or (back) out of it. */
static void copy_parts(int back, struct sievelast_drive *d, PARTS)
{
    void *in[] = {&d->highwater, d->keys, d->tables, d->lengths, d->entries, d->times};
    void *out[] = {PARTS_PASSED};
    size_t bytes[] = {sizeof d->highwater, sizeof d->keys, sizeof d->tables, sizeof d->lengths, sizeof d->entries, sizeof d->times};
    for (size_t i = 0; i < sizeof in / sizeof *in; i++)
        memcpy(back ? out[i] : in[i], back ? in[i] : out[i], bytes[i]);
}

uint64_t sievelast_format_parts(FORMAT_PARAMETERS)
{
    struct sievelast_drive d;
    uint64_t row = paper_format(&d, medium, medium_len, first, master, master_len, key, key_len);
    *size = d.size;
    copy_parts(1, &d, PARTS_PASSED);
    return row;
}

struct sievelast_answered sievelast_gate_parts(GATE_PARAMETERS)
{
    struct sievelast_drive d = {.size = size};
    copy_parts(0, &d, PARTS_PASSED);
    struct sievelast_answered a = paper_gate(&d, medium, medium_len, frame, frame_len, clock, reply, reply_len);
    copy_parts(1, &d, PARTS_PASSED);
    return a;
}
