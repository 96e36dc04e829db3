/* A drive, and one frame's way to it and back: credential issued, request encoded, frame built, put to the gate, reply checked.
 * The caller says what is asked (session_credential, session_request, `data`), asks by session_ask, and reads the answers. */
#ifndef TESTS_SESSION_H
#define TESTS_SESSION_H
#include "expect.h"
#include "sievelast.h"
#include "sievelast_store.h"
#include <stdlib.h>
#include <string.h>

#define SESSION_SLOTS 5
#define SESSION_FIRST_VERSION 1
#define SESSION_CLOCK 1000000

struct session;
typedef void session_step(struct session *);

struct session {
    void (*take)(struct session *, const char *call, session_step *); /* how a step is taken; session_take: it is called */
    struct sievelast_drive drive;
    uint8_t *medium;
    size_t medium_len;
    uint64_t clock;
    uint8_t keys[SESSION_SLOTS][SIEVELAST_KEY_BYTES]; /* of each slot, in the partition that the session works in */

    struct sievelast_credential credential;
    struct sievelast_request request;
    int grouped;         /* the request is a group's, .. */
    uint32_t member;     /* .. with this member */
    const uint8_t *data; /* at least as long as the request says */

    uint8_t credential_bytes[SIEVELAST_CREDENTIAL_BYTES];
    uint8_t request_bytes[SIEVELAST_GROUP_REQUEST_BYTES];
    uint8_t *frame;
    uint8_t *reply;

    uint64_t formatted; /* rows */
    uint64_t encoded;
    struct sievelast_issued issued;
    struct sievelast_built built;
    struct sievelast_answered answered;
    struct sievelast_checked checked;
    struct sievelast_digest digest; /* the key that operation 7 sets */
};

static inline void session_take(struct session *s, const char *call, session_step *step)
{
    (void)call;
    step(s);
}

static inline void *session_memory(size_t length)
{
    void *bytes = calloc(1, length);
    if (!bytes) {
        fprintf(stderr, "no memory for %zu bytes\n", length);
        exit(2);
    }
    return bytes;
}

/* A session over a medium of this length, not formatted yet; its keys are bytes 00 (drive) and 01 (master). */
static inline struct session *session_new(size_t medium_len)
{
    struct session *s = session_memory(sizeof *s);
    s->take = session_take;
    s->medium = session_memory(medium_len);
    s->medium_len = medium_len;
    s->clock = SESSION_CLOCK;
    memset(s->keys[SIEVELAST_SLOT_MASTER], 1, SIEVELAST_KEY_BYTES);
    s->frame = session_memory(SIEVELAST_MOST_FRAME_BYTES);
    s->reply = session_memory(SIEVELAST_MOST_REPLY_BYTES);
    return s;
}

static inline void session_free(struct session *s)
{
    free(s->medium);
    free(s->frame);
    free(s->reply);
    free(s);
}

/* ---- the steps */
static inline void session_format(struct session *s)
{
    s->formatted = sievelast_format(&s->drive, s->medium, s->medium_len, SESSION_FIRST_VERSION, s->keys[SIEVELAST_SLOT_MASTER],
                                    SIEVELAST_KEY_BYTES, s->keys[SIEVELAST_SLOT_DRIVE], SIEVELAST_KEY_BYTES);
}

static inline void session_issue(struct session *s)
{
    s->issued = sievelast_issue(s->credential, s->keys[s->credential.slot], SIEVELAST_KEY_BYTES, s->credential_bytes,
                                sizeof s->credential_bytes);
}

static inline size_t session_request_len(const struct session *s)
{
    return s->grouped ? SIEVELAST_GROUP_REQUEST_BYTES : SIEVELAST_REQUEST_BYTES;
}

static inline void session_encode(struct session *s)
{
    s->encoded = sievelast_request_encode(s->request, s->request_bytes, session_request_len(s));
}

static inline void session_encode_group(struct session *s)
{
    s->encoded = sievelast_group_request_encode(s->request, s->member, s->request_bytes, session_request_len(s));
}

static inline void session_build(struct session *s)
{
    s->built = sievelast_build(s->credential_bytes, sizeof s->credential_bytes, s->request_bytes, session_request_len(s), s->data,
                               s->request.data_len, s->issued.key, sizeof s->issued.key, s->frame, SIEVELAST_MOST_FRAME_BYTES);
}

static inline void session_gate(struct session *s)
{
    s->answered = sievelast_gate(&s->drive, s->medium, s->medium_len, s->frame, s->built.length, s->clock, s->reply,
                                 SIEVELAST_MOST_REPLY_BYTES);
}

static inline void session_check(struct session *s)
{
    s->checked = sievelast_check(s->credential_bytes, sizeof s->credential_bytes, s->request_bytes, session_request_len(s),
                                 s->issued.key, sizeof s->issued.key, s->reply, s->answered.length);
}

static inline void session_new_key(struct session *s)
{
    uint8_t message[SIEVELAST_REQUEST_BYTES + SIEVELAST_SEED_BYTES];
    memcpy(message, s->request_bytes, SIEVELAST_REQUEST_BYTES);
    memcpy(message + SIEVELAST_REQUEST_BYTES, s->data, SIEVELAST_SEED_BYTES);
    s->digest = sievelast_hmac(s->keys[s->credential.slot], SIEVELAST_KEY_BYTES, message, sizeof message);
}

/* Every step in turn; the gate's row. */
static inline uint64_t session_ask(struct session *s)
{
    s->take(s, "sievelast_issue", session_issue);
    if (s->grouped)
        s->take(s, "sievelast_group_request_encode", session_encode_group);
    else
        s->take(s, "sievelast_request_encode", session_encode);
    s->take(s, "sievelast_build", session_build);
    s->take(s, "sievelast_gate", session_gate);
    s->take(s, "sievelast_check", session_check);
    return s->answered.row;
}

/* Asks, and expects this row; a reply that the check accepts if it is a grant, and none if not. */
static inline void session_expect(struct session *s, uint64_t row, int line)
{
    uint64_t got = session_ask(s), checked = row == SIEVELAST_GRANTED ? SIEVELAST_GRANTED : SIEVELAST_ROW_REPLY;
    if (!expect(got == row && s->checked.row == checked, "the drive's row and the check's", line))
        printf("    operation %d at level %d: %d and %d, not %d and %d\n", s->request.operation, s->request.level, (int)got,
               (int)s->checked.row, (int)row, (int)checked);
}
#define EXPECT_ROW(s, row) session_expect(s, row, __LINE__)

/* ---- what is asked */
/* A credential with every right on an object (0: on the partition) of partition 0. */
static inline void session_credential(struct session *s, enum sievelast_slot slot, uint32_t object, uint32_t version)
{
    memset(&s->credential, 0, sizeof s->credential);
    s->credential.slot = (uint8_t)slot;
    s->credential.object = object;
    s->credential.version = version;
    s->credential.rights = SIEVELAST_EVERY_RIGHT;
    s->credential.end = UINT32_MAX;
    s->credential.expiry = UINT64_MAX;
    s->grouped = 0;
}

/* The same for a group, whose requests are for a member of it. */
static inline void session_group(struct session *s, enum sievelast_slot slot, uint32_t group, uint32_t version, uint32_t member)
{
    session_credential(s, slot, group, version);
    s->credential.rights |= SIEVELAST_GROUP_RIGHT;
    s->grouped = 1;
    s->member = member;
}

/* The length of the data that an operation takes. */
static inline uint32_t session_data_len(enum sievelast_operation operation, uint32_t b)
{
    switch (operation) {
    case SIEVELAST_WRITE:
        return b;
    case SIEVELAST_SET_KEY:
        return SIEVELAST_SEED_BYTES;
    case SIEVELAST_LOAD_TABLE:
        return SIEVELAST_TABLE_BYTES;
    default:
        return 0;
    }
}

/* A request at the session's clock and level, with a count that none before had. */
static inline void session_request(struct session *s, enum sievelast_operation operation, uint32_t a, uint32_t b)
{
    s->request.time = s->clock;
    s->request.count++;
    s->request.operation = (uint8_t)operation;
    s->request.a = a;
    s->request.b = b;
    s->request.data_len = session_data_len(operation, b);
}

/* Sets the key of slot `to` by the key of slot `by`; `data` is the seed. The gate's row. */
static inline uint64_t session_set_key(struct session *s, enum sievelast_slot by, enum sievelast_slot to)
{
    session_credential(s, by, 0, 0);
    session_request(s, SIEVELAST_SET_KEY, by == SIEVELAST_SLOT_PARTITION ? to : 0, 0);
    uint64_t row = session_ask(s);
    s->take(s, "sievelast_hmac", session_new_key);
    if (row == SIEVELAST_GRANTED)
        memcpy(s->keys[to], s->digest.bytes, SIEVELAST_KEY_BYTES);
    return row;
}

/* Loads partition 0's operation table; the gate's row. */
static inline uint64_t session_load_table(struct session *s, const uint8_t table[SIEVELAST_TABLE_BYTES])
{
    const uint8_t *data = s->data;
    session_credential(s, SIEVELAST_SLOT_PARTITION, 0, 0);
    session_request(s, SIEVELAST_LOAD_TABLE, 0, 0);
    s->data = table;
    uint64_t row = session_ask(s);
    s->data = data;
    return row;
}

/* Formats the drive and sets every key of partition 0; the first row that is not 0, or 0. `data` is the seed. */
static inline uint64_t session_start(struct session *s)
{
    uint64_t row;
    s->take(s, "sievelast_format", session_format);
    s->request.level = SIEVELAST_LEVEL_REPLY;
    if (s->formatted)
        return s->formatted;
    if ((row = session_set_key(s, SIEVELAST_SLOT_MASTER, SIEVELAST_SLOT_DRIVE)))
        return row;
    if ((row = session_set_key(s, SIEVELAST_SLOT_DRIVE, SIEVELAST_SLOT_PARTITION)))
        return row;
    if ((row = session_set_key(s, SIEVELAST_SLOT_PARTITION, SIEVELAST_SLOT_BLACK)))
        return row;
    return session_set_key(s, SIEVELAST_SLOT_PARTITION, SIEVELAST_SLOT_GOLD);
}

/* ---- what came back: the version that a raise or a create gave, at a grant */
static inline uint32_t session_version(struct session *s)
{
    return (uint32_t)sievelast_version_decode(s->reply + s->checked.start, s->checked.length).version;
}
#endif
