/* Document 01's client end (paper.h), issuer, encoders and decoders in the archives' place, to test the tests: with paper_store.c this is
 * all that the headers declare. cases_test linked with both must find what the model in Rust expects. */
#include "draft.h"
#include "sievelast.h"

/* ---- builder and reply check */
struct sievelast_built sievelast_build(const uint8_t *credential, size_t credential_len, const uint8_t *request, size_t request_len,
                                       const uint8_t *data, size_t data_len, const uint8_t *key, size_t key_len, uint8_t *space,
                                       size_t space_len)
{
    struct sievelast_built b = {paper_build(credential, credential_len, request, request_len, data_len, key_len, space_len), 0};
    if (b.row)
        return b;
    size_t records = 36 + request_len;
    memcpy(space, credential, 36);
    memcpy(space + 36, request, request_len);
    if (data_len)
        memcpy(space + records, data, data_len);
    paper_digest(key, credential, request, data, request[3] ? data_len : 0, space + records + data_len);
    b.length = frame_length(request, data_len);
    return b;
}

struct sievelast_checked sievelast_check(const uint8_t *credential, size_t credential_len, const uint8_t *request, size_t request_len,
                                         const uint8_t *key, size_t key_len, const uint8_t *reply, size_t reply_len)
{
    struct sievelast_checked c = {paper_check(credential, credential_len, request, request_len, key, key_len, reply, reply_len), 0, 0};
    if (c.row == 0)
        c.start = 8, c.length = paper_result(request);
    return c;
}

/* ---- the records, by what drafts and the paper's gate make of a frame's first bytes */
uint64_t sievelast_credential_encode(struct sievelast_credential fields, uint8_t *space, size_t space_len)
{
    struct draft f = {.who = fields};
    if (space_len < 36)
        return 29;
    draft_records(&f);
    memcpy(space, f.frame, 36);
    return 0;
}

uint64_t sievelast_request_encode(struct sievelast_request fields, uint8_t *space, size_t space_len)
{
    struct draft f = {.what = fields};
    if (space_len < 28)
        return 29;
    draft_records(&f);
    memcpy(space, f.frame + 36, 28);
    return 0;
}

uint64_t sievelast_group_request_encode(struct sievelast_request fields, uint32_t member, uint8_t *space, size_t space_len)
{
    struct draft f = {.what = fields, .grouped = 1, .member = member};
    if (space_len < 32)
        return 29;
    draft_records(&f);
    memcpy(space, f.frame + 36, 32);
    return 0;
}

struct sievelast_credential_decoded sievelast_credential_decode(const uint8_t *record, size_t record_len)
{
    struct sievelast_credential_decoded d = {.row = 28};
    uint8_t records[68] = {0};
    if (record_len != 36 || number(record, 2) != 0x4c43 || record[15] != 0)
        return d;
    memcpy(records, record, 36);
    struct paper_call q = paper_call_of(records);
    struct sievelast_credential c = {q.expiry, q.object, q.version, q.first, q.end, q.holder, (uint16_t)q.rights, (uint8_t)q.partition,
                                     (uint8_t)q.slot, record[14]};
    d.row = 0;
    d.fields = c;
    return d;
}

/* The fields of a request of either form, and its member, which is 0 where it has none. */
static struct sievelast_group_request_decoded request_fields(const uint8_t *record, size_t record_len)
{
    uint8_t records[68] = {0};
    memcpy(records + 36, record, record_len);
    struct paper_call q = paper_call_of(records);
    struct sievelast_request r = {q.time, q.count, q.a, q.b, q.n, (uint8_t)q.operation, (uint8_t)q.level};
    struct sievelast_group_request_decoded d = {0, r, q.target};
    return d;
}

struct sievelast_request_decoded sievelast_request_decode(const uint8_t *record, size_t record_len)
{
    struct sievelast_request_decoded d = {.row = 28};
    if (record_len != 28 || number(record, 2) != 0x4c52)
        return d;
    d.row = 0;
    d.fields = request_fields(record, record_len).fields;
    return d;
}

struct sievelast_group_request_decoded sievelast_group_request_decode(const uint8_t *record, size_t record_len)
{
    struct sievelast_group_request_decoded d = {.row = 28};
    return record_len != 32 || number(record, 2) != 0x4c47 ? d : request_fields(record, record_len);
}

/* ---- results */
struct sievelast_looked sievelast_look_decode(const uint8_t *result, size_t result_len)
{
    struct sievelast_looked l = {28, 0, 0};
    if (result_len == 8)
        l.row = 0, l.size = (uint32_t)number(result, 4), l.version = (uint32_t)number(result + 4, 4);
    return l;
}

struct sievelast_versioned sievelast_version_decode(const uint8_t *result, size_t result_len)
{
    struct sievelast_versioned v = {28, 0};
    if (result_len == 4)
        v.row = 0, v.version = (uint32_t)number(result, 4);
    return v;
}

/* ---- issuer and HMAC */
struct sievelast_issued sievelast_issue(struct sievelast_credential fields, const uint8_t *key, size_t key_len, uint8_t *space,
                                        size_t space_len)
{
    static const uint8_t good_request[28] = {0x4c, 0x52, 1}; /* row 4 refuses no field of it */
    uint8_t record[36];
    struct sievelast_issued i = {.row = 26};
    if (key_len != 32)
        return i;
    sievelast_credential_encode(fields, record, sizeof record);
    i.row = paper_row_4(record, good_request) ? 28 : space_len < sizeof record ? 29 : 0;
    if (i.row)
        return i;
    memcpy(space, record, sizeof record);
    test_hmac(key, key_len, record, sizeof record, i.key);
    return i;
}

struct sievelast_digest sievelast_hmac(const uint8_t *key, size_t key_len, const uint8_t *message, size_t message_len)
{
    struct sievelast_digest d = {.row = 27};
    if (key_len > SIEVELAST_MOST_HMAC_BYTES || message_len > SIEVELAST_MOST_HMAC_BYTES)
        return d;
    d.row = 0;
    test_hmac(key, key_len, message, message_len, d.bytes);
    return d;
}
