/* How much stack each call needs: every call runs on a painted stack of its own, and the lowest byte that lost its paint shows how
 * deep it came. The media, frames, replies and messages are the longest there are, with every operation at every level. A call that
 * passes SIEVELAST_STACK_BYTES fails the test. */
#define _XOPEN_SOURCE 600
#include "session.h"
#include <ucontext.h>

enum { STACK_BYTES = 1 << 18, PAINT = 0x5a, CALLS = 16 };

static uint8_t stack[STACK_BYTES];

/* The deepest that each call came. */
static struct deepest {
    const char *call;
    size_t bytes;
} deepest[CALLS];

static ucontext_t here, there;
static session_step *step_taken;
static struct session *step_session;

static void entry(void) { step_taken(step_session); }

/* Takes the step on the painted stack; how deep it came. The few bytes that starting and leaving it need count too, and at the first
 * call what the dynamic linker needs to find memcpy. */
static size_t depth(struct session *s, session_step *step)
{
    size_t clean = 0;
    memset(stack, PAINT, sizeof stack);
    if (getcontext(&there)) {
        perror("stack_test");
        exit(2);
    }
    there.uc_stack.ss_sp = stack;
    there.uc_stack.ss_size = sizeof stack;
    there.uc_link = &here;
    step_taken = step;
    step_session = s;
    makecontext(&there, entry, 0);
    swapcontext(&here, &there);
    while (clean < sizeof stack && stack[clean] == PAINT)
        clean++;
    return sizeof stack - clean;
}

static void take(struct session *s, const char *call, session_step *step)
{
    size_t bytes = depth(s, step), i = 0;
    while (i < CALLS - 1 && deepest[i].call && strcmp(deepest[i].call, call))
        i++;
    deepest[i].call = call;
    if (bytes > deepest[i].bytes)
        deepest[i].bytes = bytes;
}

/* ---- calls that no session makes */
static void other_records(struct session *s)
{
    uint8_t space[SIEVELAST_CREDENTIAL_BYTES];
    struct sievelast_credential_decoded c;
    struct sievelast_request_decoded r;
    struct sievelast_group_request_decoded g;
    EXPECT(sievelast_credential_encode(s->credential, space, sizeof space) == SIEVELAST_GRANTED);
    c = sievelast_credential_decode(space, sizeof space);
    r = sievelast_request_decode(s->request_bytes, SIEVELAST_REQUEST_BYTES);
    EXPECT(c.row == SIEVELAST_GRANTED && r.row == SIEVELAST_GRANTED);
    EXPECT(sievelast_group_request_encode(s->request, 1, space, SIEVELAST_GROUP_REQUEST_BYTES) == SIEVELAST_GRANTED);
    g = sievelast_group_request_decode(space, SIEVELAST_GROUP_REQUEST_BYTES);
    EXPECT(g.row == SIEVELAST_GRANTED && g.member == 1);
    EXPECT(sievelast_look_decode(space, SIEVELAST_LOOK_BYTES).row == SIEVELAST_GRANTED);
    EXPECT(sievelast_version_decode(space, SIEVELAST_NEW_VERSION_BYTES).row == SIEVELAST_GRANTED);
}

static void long_hmac(struct session *s)
{
    EXPECT(sievelast_hmac(s->medium, s->medium_len, s->medium, s->medium_len).row == SIEVELAST_GRANTED);
}

/* ---- what is asked of the drive */
/* Operations 1 to 6 on an object as large as a quarter, and the refusals that come last. */
static void operations(struct session *s, enum sievelast_level level)
{
    const uint32_t number = 1, size = SIEVELAST_MOST_RESULT_BYTES;
    s->request.level = (uint8_t)level;
    session_credential(s, SIEVELAST_SLOT_BLACK, 0, SESSION_FIRST_VERSION);
    session_request(s, SIEVELAST_CREATE, number, size);
    EXPECT_ROW(s, SIEVELAST_GRANTED);
    uint32_t version = session_version(s);
    session_request(s, SIEVELAST_CREATE, number, size);
    EXPECT_ROW(s, SIEVELAST_ROW_NUMBER_TAKEN);
    session_request(s, SIEVELAST_CREATE, number + 1, size);
    EXPECT_ROW(s, SIEVELAST_ROW_NO_GAP);

    session_credential(s, SIEVELAST_SLOT_BLACK, number, version);
    session_request(s, SIEVELAST_WRITE, size - SIEVELAST_MOST_DATA_BYTES, SIEVELAST_MOST_DATA_BYTES);
    EXPECT_ROW(s, SIEVELAST_GRANTED);
    session_request(s, SIEVELAST_READ, 0, size);
    EXPECT_ROW(s, SIEVELAST_GRANTED);
    EXPECT_ROW(s, SIEVELAST_ROW_REPLAYED);
    session_request(s, SIEVELAST_LOOK, 0, 0);
    EXPECT_ROW(s, SIEVELAST_GRANTED);
    session_request(s, SIEVELAST_RAISE, 0, 0);
    EXPECT_ROW(s, SIEVELAST_GRANTED);
    s->credential.version = session_version(s);
    session_request(s, SIEVELAST_DELETE, 0, 0);
    EXPECT_ROW(s, SIEVELAST_GRANTED);
}

/* A group as large as a quarter can have it beside a log of a step's bytes: its list is the longest there is but for these. Read, write, look
 * and the refusals through it. */
static void groups(struct session *s, enum sievelast_level level)
{
    const uint32_t log = 1, group = 2, size = SIEVELAST_EXTENT_STEP, list_size = SIEVELAST_MOST_RESULT_BYTES - SIEVELAST_EXTENT_STEP;
    s->request.level = (uint8_t)level;
    session_credential(s, SIEVELAST_SLOT_BLACK, 0, SESSION_FIRST_VERSION);
    session_request(s, SIEVELAST_CREATE, log, size);
    EXPECT_ROW(s, SIEVELAST_GRANTED);
    uint32_t log_version = session_version(s);
    session_request(s, SIEVELAST_CREATE, group, list_size);
    EXPECT_ROW(s, SIEVELAST_GRANTED);
    uint32_t version = session_version(s);
    session_group(s, SIEVELAST_SLOT_BLACK, group, version, log);
    session_request(s, SIEVELAST_READ, 0, size);
    EXPECT_ROW(s, SIEVELAST_ROW_GROUP_LIST);
    for (uint32_t i = 0, at = size; at < SIEVELAST_MOST_RESULT_BYTES; i++, at += SIEVELAST_MEMBER_BYTES)
        for (int byte = 0; byte < SIEVELAST_MEMBER_BYTES; byte++) /* partition 0 is the medium's start */
            s->medium[at + (uint32_t)byte] = (uint8_t)((i + 1) >> (24 - 8 * byte));
    for (int operation = SIEVELAST_READ; operation <= SIEVELAST_LOOK; operation++) {
        session_request(s, (enum sievelast_operation)operation, 0, operation == SIEVELAST_LOOK ? 0 : size);
        EXPECT_ROW(s, SIEVELAST_GRANTED);
    }
    session_request(s, SIEVELAST_LOOK, 0, 0);
    s->member = list_size / SIEVELAST_MEMBER_BYTES, EXPECT_ROW(s, SIEVELAST_ROW_NO_MEMBER);
    s->member++, EXPECT_ROW(s, SIEVELAST_ROW_NOT_MEMBER);
    session_credential(s, SIEVELAST_SLOT_BLACK, group, version), session_request(s, SIEVELAST_DELETE, 0, 0);
    EXPECT_ROW(s, SIEVELAST_GRANTED);
    session_credential(s, SIEVELAST_SLOT_BLACK, log, log_version), session_request(s, SIEVELAST_DELETE, 0, 0);
    EXPECT_ROW(s, SIEVELAST_GRANTED);
}

/* Operation 8: a table, and one that is not good. */
static void tables(struct session *s, enum sievelast_level level)
{
    uint8_t table[SIEVELAST_TABLE_BYTES] = {0, 1, 0, 0, 2, 0, 0, 4, 0, 0, 8, 0, 0, 16, 0, 0, 32, 0, 0, 64, 1};
    s->request.level = (uint8_t)level;
    EXPECT(session_load_table(s, table) == SIEVELAST_GRANTED);
    table[SIEVELAST_TABLE_BYTES - 1] = 0;
    EXPECT(session_load_table(s, table) == SIEVELAST_ROW_TABLE);
}

/* The tables of a partition and its replay memory full; then the mark moves on, and every entry is dropped. */
static void full_tables(struct session *s)
{
    session_credential(s, SIEVELAST_SLOT_GOLD, 0, SESSION_FIRST_VERSION);
    for (uint32_t number = 1; number <= SIEVELAST_MOST_OBJECTS; number++) {
        session_request(s, SIEVELAST_CREATE, number, 1);
        EXPECT_ROW(s, SIEVELAST_GRANTED);
    }
    session_request(s, SIEVELAST_CREATE, SIEVELAST_MOST_OBJECTS + 1, 1);
    EXPECT_ROW(s, SIEVELAST_ROW_OBJECTS_FULL);
    session_request(s, SIEVELAST_LOOK, 0, 0);
    while (session_ask(s) == SIEVELAST_GRANTED)
        s->request.count++;
    EXPECT_ROW(s, SIEVELAST_ROW_MEMORY_FULL);
    s->clock += 2 * SIEVELAST_TIME_WINDOW + 1;
    session_request(s, SIEVELAST_LOOK, 0, 0);
    EXPECT_ROW(s, SIEVELAST_GRANTED);
}

/* A format refused, a frame with another digest, and the calls that a session has none of. */
static void rest(struct session *s)
{
    s->built.length = 0;
    s->take(s, "sievelast_gate", session_gate);
    EXPECT(s->answered.row == SIEVELAST_ROW_FRAME_SHORT);
    s->built.length = SIEVELAST_LEAST_FRAME_BYTES;
    s->frame[SIEVELAST_LEAST_FRAME_BYTES - 1] ^= 1;
    s->take(s, "sievelast_gate", session_gate);
    EXPECT(s->answered.row == SIEVELAST_ROW_DIGEST);
    s->take(s, "sievelast_hmac", long_hmac);
    s->take(s, "encoders and decoders", other_records);
    s->medium_len++;
    s->take(s, "sievelast_format", session_format);
    EXPECT(s->formatted == SIEVELAST_ROW_MEDIUM_LARGE);
    s->medium_len--;
}

int main(void)
{
    struct session *s = session_new(SIEVELAST_MOST_MEDIUM_BYTES + 1);
    s->medium_len = SIEVELAST_MOST_MEDIUM_BYTES;
    s->data = session_memory(SIEVELAST_MOST_DATA_BYTES);
    s->take = take;
    EXPECT(session_start(s) == SIEVELAST_GRANTED);
    operations(s, SIEVELAST_LEVEL_RECORDS);
    operations(s, SIEVELAST_LEVEL_DATA);
    operations(s, SIEVELAST_LEVEL_REPLY);
    groups(s, SIEVELAST_LEVEL_RECORDS);
    groups(s, SIEVELAST_LEVEL_DATA);
    groups(s, SIEVELAST_LEVEL_REPLY);
    tables(s, SIEVELAST_LEVEL_DATA);
    tables(s, SIEVELAST_LEVEL_REPLY);
    full_tables(s);
    rest(s);
    for (size_t i = 0; i < CALLS && deepest[i].call; i++) {
        printf("stack: %s: %zu bytes\n", deepest[i].call, deepest[i].bytes);
        EXPECT_IN(deepest[i].bytes < SIEVELAST_STACK_BYTES, "%s: %zu bytes of %d", deepest[i].call, deepest[i].bytes,
                  SIEVELAST_STACK_BYTES);
    }
    return expected("stack");
}
