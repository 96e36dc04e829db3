/* The records of a frame as include/sievelast_records.h has them: constants and rows against document 01's numbers, encoders and
 * decoders against bytes written out by hand from its layouts, and both ends of the wire against each other: the issuer writes what
 * the encoder writes, and the drive reads from a frame the fields that were encoded. */
#include "expect.h"
#include "hmac.h"
#include "session.h"

enum { FILL = 0xee, ROOM = 64, ALIGNMENTS = 16 };

/* ---- bytes in hexadecimal; spaces between them mean nothing */
static size_t unhex(const char *text, uint8_t *bytes)
{
    unsigned digits = 0;
    for (; *text; text++) {
        const char *place = strchr("0123456789abcdef", *text);
        if (*text == ' ' || !place)
            continue;
        bytes[digits / 2] = (uint8_t)(bytes[digits / 2] << 4 | (place - "0123456789abcdef"));
        digits++;
    }
    return digits / 2;
}

static int all(const uint8_t *bytes, size_t length, uint8_t value)
{
    size_t i = 0;
    while (i < length && bytes[i] == value)
        i++;
    return i == length;
}

/* ---- random numbers, the same in every run */
static uint64_t random_state = 88172645463325252u;

static uint64_t random_bits(void)
{
    random_state ^= random_state << 13;
    random_state ^= random_state >> 7;
    random_state ^= random_state << 17;
    return random_state;
}

/* ---- constants */
static void constants(void)
{
    char version[64];
    snprintf(version, sizeof version, "%d.%d.%d", SIEVELAST_VERSION_MAJOR, SIEVELAST_VERSION_MINOR, SIEVELAST_VERSION_PATCH);
    EXPECT(!strcmp(SIEVELAST_VERSION, version));

    EXPECT(SIEVELAST_CREDENTIAL_BYTES == 36 && SIEVELAST_REQUEST_BYTES == 28);
    EXPECT(SIEVELAST_GROUP_REQUEST_BYTES == 28 + 4 && SIEVELAST_MEMBER_BYTES == 4);
    EXPECT(SIEVELAST_DIGEST_BYTES == 32 && SIEVELAST_KEY_BYTES == 32 && SIEVELAST_SEED_BYTES == 16);
    EXPECT(SIEVELAST_TABLE_OPERATIONS == 7 && SIEVELAST_TABLE_BYTES == 7 * (2 + 1));
    EXPECT(SIEVELAST_REPLY_HEAD_BYTES == 2 + 1 + 1 + 4);
    EXPECT(SIEVELAST_LOOK_BYTES == 4 + 4 && SIEVELAST_NEW_VERSION_BYTES == 4);
    EXPECT(SIEVELAST_LEAST_FRAME_BYTES == 36 + 28 + 32 && SIEVELAST_GROUP_FRAME_BYTES == 36 + 32 + 32);
    EXPECT(SIEVELAST_MOST_FRAME_BYTES == 36 + 32 + 1048576 + 32);
    EXPECT(SIEVELAST_MOST_DATA_BYTES == 1048576 && SIEVELAST_MOST_MEDIUM_BYTES == 16777216);
    EXPECT(SIEVELAST_MOST_RESULT_BYTES == 4194304 && SIEVELAST_MOST_RESULT_BYTES == SIEVELAST_MOST_MEDIUM_BYTES / 4);
    EXPECT(SIEVELAST_MOST_REPLY_BYTES == 8 + 4194304 + 32 && SIEVELAST_MOST_HMAC_BYTES == 16777216);
    EXPECT(SIEVELAST_PARTITIONS == 4 && SIEVELAST_MOST_OBJECTS == 16 && SIEVELAST_EXTENT_STEP == 16);
    EXPECT(SIEVELAST_MEMORIES == 4 + 1 && SIEVELAST_MOST_ENTRIES == 64 && SIEVELAST_TIME_WINDOW == 5000);

    EXPECT(SIEVELAST_READ == 1 && SIEVELAST_WRITE == 2 && SIEVELAST_LOOK == 3 && SIEVELAST_RAISE == 4);
    EXPECT(SIEVELAST_CREATE == 5 && SIEVELAST_DELETE == 6 && SIEVELAST_SET_KEY == 7 && SIEVELAST_LOAD_TABLE == 8);
    EXPECT(SIEVELAST_LEVEL_RECORDS == 0 && SIEVELAST_LEVEL_DATA == 1 && SIEVELAST_LEVEL_REPLY == 2);
    EXPECT(SIEVELAST_SLOT_BLACK == 0 && SIEVELAST_SLOT_GOLD == 1 && SIEVELAST_SLOT_PARTITION == 2);
    EXPECT(SIEVELAST_SLOT_DRIVE == 3 && SIEVELAST_SLOT_MASTER == 4);
    for (int operation = SIEVELAST_READ; operation <= SIEVELAST_SET_KEY; operation++)
        EXPECT(SIEVELAST_RIGHT(operation) == 1 << (operation - 1));
    EXPECT(SIEVELAST_RIGHT(SIEVELAST_LOAD_TABLE) == 0x40);
    EXPECT(SIEVELAST_EVERY_RIGHT == 0x7f && sizeof SIEVELAST_EVERY_RIGHT == 2 && sizeof SIEVELAST_RIGHT(1) == 2);
    EXPECT(SIEVELAST_GROUP_RIGHT == 1 << 7 && sizeof SIEVELAST_GROUP_RIGHT == 2);

    EXPECT(SIEVELAST_RECORD_KEYS == (1 + 1 + 4 * 3) * (32 + 1));
    EXPECT(SIEVELAST_RECORD_TABLES == 4 * (3 + 4 * 16 + 7 + 7) && SIEVELAST_RECORD_PLACES == 5 * 64);
    EXPECT(SIEVELAST_RECORD_ENTRY == 4 && SIEVELAST_RECORD_ENTRIES == 5 * 64 * 4);
}

/* What the archives were compiled for: the structs that calls take and return. */
static void layouts(void)
{
    EXPECT(sizeof(struct sievelast_credential) == 40 && offsetof(struct sievelast_credential, object) == 8);
    EXPECT(offsetof(struct sievelast_credential, version) == 12 && offsetof(struct sievelast_credential, first) == 16);
    EXPECT(offsetof(struct sievelast_credential, end) == 20 && offsetof(struct sievelast_credential, holder) == 24);
    EXPECT(offsetof(struct sievelast_credential, rights) == 28 && offsetof(struct sievelast_credential, partition) == 30);
    EXPECT(offsetof(struct sievelast_credential, slot) == 31 && offsetof(struct sievelast_credential, least) == 32);
    EXPECT(sizeof(struct sievelast_request) == 32 && offsetof(struct sievelast_request, count) == 8);
    EXPECT(offsetof(struct sievelast_request, a) == 12 && offsetof(struct sievelast_request, b) == 16);
    EXPECT(offsetof(struct sievelast_request, data_len) == 20 && offsetof(struct sievelast_request, operation) == 24);
    EXPECT(offsetof(struct sievelast_request, level) == 25);
    EXPECT(sizeof(struct sievelast_credential_decoded) == 48 && sizeof(struct sievelast_request_decoded) == 40);
    EXPECT(sizeof(struct sievelast_group_request_decoded) == 48 && offsetof(struct sievelast_group_request_decoded, fields) == 8);
    EXPECT(offsetof(struct sievelast_group_request_decoded, member) == 40);
    EXPECT(sizeof(struct sievelast_looked) == 16 && sizeof(struct sievelast_versioned) == 16);
    EXPECT(sizeof(struct sievelast_built) == 16 && sizeof(struct sievelast_checked) == 24);
    EXPECT(sizeof(struct sievelast_answered) == 16 && sizeof(struct sievelast_issued) == 40);
    EXPECT(sizeof(struct sievelast_digest) == 40);
    EXPECT(offsetof(struct sievelast_drive, tables) == 8 && offsetof(struct sievelast_drive, keys) == 8 + 4 * 4 * 81);
}

/* ---- rows: by number, and words of document 01's that the text must have; but for row 0 no other row's may have them */
static const struct {
    int row;
    const char *words;
} rows[] = {
    {SIEVELAST_GRANTED, "granted"},
    {SIEVELAST_ROW_RECORD_UNSOUND, "not sound"},
    {SIEVELAST_ROW_FRAME_SHORT, "under 96 bytes"},
    {SIEVELAST_ROW_MARKS, "start with its mark"},
    {SIEVELAST_ROW_FIELD, "outside its values"},
    {SIEVELAST_ROW_LENGTHS, "as long as its parts"},
    {SIEVELAST_ROW_OPERATION_MISFITS, "does not fit the slot"},
    {SIEVELAST_ROW_LEVEL_LOW, "the level is under"},
    {SIEVELAST_ROW_KEY_UNSET, "never set"},
    {SIEVELAST_ROW_DIGEST, "digest differs"},
    {SIEVELAST_ROW_EXPIRED, "expired"},
    {SIEVELAST_ROW_UNTIMELY, "5,000"},
    {SIEVELAST_ROW_REPLAYED, "nonce"},
    {SIEVELAST_ROW_RIGHT_MISSING, "every right"},
    {SIEVELAST_ROW_NO_OBJECT, "the object does not exist"},
    {SIEVELAST_ROW_VERSION, "not the present one"},
    {SIEVELAST_ROW_RANGE, "range"},
    {SIEVELAST_ROW_PAST_SIZE, "past the object"},
    {SIEVELAST_ROW_NUMBER_TAKEN, "taken"},
    {SIEVELAST_ROW_OBJECTS_FULL, "16 objects"},
    {SIEVELAST_ROW_NO_GAP, "multiple of 16"},
    {SIEVELAST_ROW_LAST_VERSION, "4,294,967,295"},
    {SIEVELAST_ROW_MEMORY_FULL, "64 entries"},
    {SIEVELAST_ROW_REPLY_SPACE, "reply space"},
    {SIEVELAST_ROW_MEDIUM_LARGE, "medium is over 16,777,216"},
    {SIEVELAST_ROW_FIRST_VERSION, "first version is 0"},
    {SIEVELAST_ROW_KEY_LENGTH, "not 32 bytes"},
    {SIEVELAST_ROW_DIGEST_INPUT, "message"},
    {SIEVELAST_ROW_RECORDS, "a record is wrong"},
    {SIEVELAST_ROW_SPACE, "space lent"},
    {SIEVELAST_ROW_REPLY, "reply is not the one"},
    {SIEVELAST_ROW_TABLE, "operation table"},
    {SIEVELAST_ROW_GROUP_LIST, "rise strictly"},
    {SIEVELAST_ROW_NOT_MEMBER, "not in the group's list"},
    {SIEVELAST_ROW_NO_MEMBER, "member does not exist"},
};

static void row_texts(void)
{
    const char *none = sievelast_row_text(SIEVELAST_LAST_ROW + 1);
    EXPECT(SIEVELAST_LAST_ROW == 34 && sizeof rows / sizeof *rows == SIEVELAST_LAST_ROW + 1);
    EXPECT(!strcmp(sievelast_row_text(SIEVELAST_GRANTED), rows[0].words) && !strcmp(none, "no such row"));
    for (int i = 0; i <= SIEVELAST_LAST_ROW; i++) {
        const char *text = sievelast_row_text((uint64_t)i);
        EXPECT_IN(text != NULL, "row %d has no text", i);
        if (!text)
            continue;
        EXPECT_IN(rows[i].row == i && !strpbrk(text, "\n.") && strcmp(text, none), "row %d is '%s'", i, text);
        for (int j = 1; j <= SIEVELAST_LAST_ROW; j++)
            EXPECT_IN((strstr(text, rows[j].words) != NULL) == (i == j), "row %d is '%s'; row %d must have '%s', and no other", i,
                      text, j, rows[j].words);
    }
    EXPECT(sievelast_row_text((uint64_t)1 << 32) == none && sievelast_row_text(UINT64_MAX) == none);
}

/* ---- the credential: 36 bytes. The columns are document 01's: mark, partition, slot, object, version, rights, least, zero,
 * first, end, expiry, holder. */
static const struct credential_case {
    struct sievelast_credential fields;
    const char *bytes;
} credential_cases[] = {
    {{.partition = 0}, "4c43 00 00 00000000 00000000 0000 00 00 00000000 00000000 0000000000000000 00000000"},
    {{.partition = 0xff}, "4c43 ff 00 00000000 00000000 0000 00 00 00000000 00000000 0000000000000000 00000000"},
    {{.slot = 0xff}, "4c43 00 ff 00000000 00000000 0000 00 00 00000000 00000000 0000000000000000 00000000"},
    {{.object = UINT32_MAX}, "4c43 00 00 ffffffff 00000000 0000 00 00 00000000 00000000 0000000000000000 00000000"},
    {{.version = UINT32_MAX}, "4c43 00 00 00000000 ffffffff 0000 00 00 00000000 00000000 0000000000000000 00000000"},
    {{.rights = 0xffff}, "4c43 00 00 00000000 00000000 ffff 00 00 00000000 00000000 0000000000000000 00000000"},
    {{.least = 0xff}, "4c43 00 00 00000000 00000000 0000 ff 00 00000000 00000000 0000000000000000 00000000"},
    {{.first = UINT32_MAX}, "4c43 00 00 00000000 00000000 0000 00 00 ffffffff 00000000 0000000000000000 00000000"},
    {{.end = UINT32_MAX}, "4c43 00 00 00000000 00000000 0000 00 00 00000000 ffffffff 0000000000000000 00000000"},
    {{.expiry = UINT64_MAX}, "4c43 00 00 00000000 00000000 0000 00 00 00000000 00000000 ffffffffffffffff 00000000"},
    {{.holder = UINT32_MAX}, "4c43 00 00 00000000 00000000 0000 00 00 00000000 00000000 0000000000000000 ffffffff"},
    {{.partition = 0xff, .slot = 0xff, .object = UINT32_MAX, .version = UINT32_MAX, .rights = 0xffff, .least = 0xff,
      .first = UINT32_MAX, .end = UINT32_MAX, .expiry = UINT64_MAX, .holder = UINT32_MAX},
     "4c43 ff ff ffffffff ffffffff ffff ff 00 ffffffff ffffffff ffffffffffffffff ffffffff"},
    {{.partition = 3, .slot = 1, .object = 0x01020304, .version = 0x05060708, .rights = 0x090a, .least = 2,
      .first = 0x0b0c0d0e, .end = 0x0f101112, .expiry = 0x131415161718191a, .holder = 0x1b1c1d1e},
     "4c43 03 01 01020304 05060708 090a 02 00 0b0c0d0e 0f101112 131415161718191a 1b1c1d1e"},
    {{.partition = 2, .slot = 4, .object = 5, .version = 7, .rights = 0x7f, .least = 1, .first = 1, .end = 4096,
      .expiry = 1234567, .holder = 9},
     "4c43 02 04 00000005 00000007 007f 01 00 00000001 00001000 000000000012d687 00000009"},
};

/* ---- the request: 28 bytes. The columns are mark, operation, level, time, count, a, b, data length. */
static const struct request_case {
    struct sievelast_request fields;
    const char *bytes;
} request_cases[] = {
    {{.operation = 0}, "4c52 00 00 0000000000000000 00000000 00000000 00000000 00000000"},
    {{.operation = 0xff}, "4c52 ff 00 0000000000000000 00000000 00000000 00000000 00000000"},
    {{.level = 0xff}, "4c52 00 ff 0000000000000000 00000000 00000000 00000000 00000000"},
    {{.time = UINT64_MAX}, "4c52 00 00 ffffffffffffffff 00000000 00000000 00000000 00000000"},
    {{.count = UINT32_MAX}, "4c52 00 00 0000000000000000 ffffffff 00000000 00000000 00000000"},
    {{.a = UINT32_MAX}, "4c52 00 00 0000000000000000 00000000 ffffffff 00000000 00000000"},
    {{.b = UINT32_MAX}, "4c52 00 00 0000000000000000 00000000 00000000 ffffffff 00000000"},
    {{.data_len = UINT32_MAX}, "4c52 00 00 0000000000000000 00000000 00000000 00000000 ffffffff"},
    {{.operation = 0xff, .level = 0xff, .time = UINT64_MAX, .count = UINT32_MAX, .a = UINT32_MAX, .b = UINT32_MAX,
      .data_len = UINT32_MAX},
     "4c52 ff ff ffffffffffffffff ffffffff ffffffff ffffffff ffffffff"},
    {{.operation = 2, .level = 1, .time = 0x0102030405060708, .count = 0x090a0b0c, .a = 0x0d0e0f10, .b = 0x11121314,
      .data_len = 0x15161718},
     "4c52 02 01 0102030405060708 090a0b0c 0d0e0f10 11121314 15161718"},
    {{.operation = 7, .level = 2, .time = 1000, .count = 41, .a = 1, .b = 0, .data_len = 16},
     "4c52 07 02 00000000000003e8 00000029 00000001 00000000 00000010"},
    {{.operation = 8, .level = 1, .time = 1000, .count = 42, .a = 0, .b = 0, .data_len = 21},
     "4c52 08 01 00000000000003e8 0000002a 00000000 00000000 00000015"},
};

/* ---- a group's request: 32 bytes. The columns are the request's, with another mark, and the member. */
static const struct group_case {
    struct sievelast_request fields;
    uint32_t member;
    const char *bytes;
} group_cases[] = {
    {{.operation = 0}, 0, "4c47 00 00 0000000000000000 00000000 00000000 00000000 00000000 00000000"},
    {{.operation = 0xff}, 0, "4c47 ff 00 0000000000000000 00000000 00000000 00000000 00000000 00000000"},
    {{.level = 0xff}, 0, "4c47 00 ff 0000000000000000 00000000 00000000 00000000 00000000 00000000"},
    {{.time = UINT64_MAX}, 0, "4c47 00 00 ffffffffffffffff 00000000 00000000 00000000 00000000 00000000"},
    {{.count = UINT32_MAX}, 0, "4c47 00 00 0000000000000000 ffffffff 00000000 00000000 00000000 00000000"},
    {{.a = UINT32_MAX}, 0, "4c47 00 00 0000000000000000 00000000 ffffffff 00000000 00000000 00000000"},
    {{.b = UINT32_MAX}, 0, "4c47 00 00 0000000000000000 00000000 00000000 ffffffff 00000000 00000000"},
    {{.data_len = UINT32_MAX}, 0, "4c47 00 00 0000000000000000 00000000 00000000 00000000 ffffffff 00000000"},
    {{.operation = 0}, UINT32_MAX, "4c47 00 00 0000000000000000 00000000 00000000 00000000 00000000 ffffffff"},
    {{.operation = 0xff, .level = 0xff, .time = UINT64_MAX, .count = UINT32_MAX, .a = UINT32_MAX, .b = UINT32_MAX,
      .data_len = UINT32_MAX}, UINT32_MAX,
     "4c47 ff ff ffffffffffffffff ffffffff ffffffff ffffffff ffffffff ffffffff"},
    {{.operation = 2, .level = 1, .time = 0x0102030405060708, .count = 0x090a0b0c, .a = 0x0d0e0f10, .b = 0x11121314,
      .data_len = 0x15161718}, 0x191a1b1c,
     "4c47 02 01 0102030405060708 090a0b0c 0d0e0f10 11121314 15161718 191a1b1c"},
    {{.operation = 1, .level = 2, .time = 1000, .count = 41, .a = 0, .b = 64, .data_len = 0}, 4711,
     "4c47 01 02 00000000000003e8 00000029 00000000 00000040 00000000 00001267"},
};

static int same_credential(struct sievelast_credential x, struct sievelast_credential y)
{
    return x.expiry == y.expiry && x.object == y.object && x.version == y.version && x.first == y.first && x.end == y.end &&
           x.holder == y.holder && x.rights == y.rights && x.partition == y.partition && x.slot == y.slot && x.least == y.least;
}

static int same_request(struct sievelast_request x, struct sievelast_request y)
{
    return x.time == y.time && x.count == y.count && x.a == y.a && x.b == y.b && x.data_len == y.data_len &&
           x.operation == y.operation && x.level == y.level;
}

/* ---- all three records by one set of tests */
struct record {
    const char *name;
    size_t length;
    size_t zero; /* where the zero byte is; 0 where there is none */
    size_t cases;
    const char *(*bytes)(size_t i);
    uint64_t (*encode)(size_t i, uint8_t *space, size_t space_len);
    int (*decoded)(size_t i, const uint8_t *record, size_t record_len); /* row 0 and the fields of case i? */
    int (*refused)(const uint8_t *record, size_t record_len);           /* row 28 and zeros? */
};

static const char *credential_bytes(size_t i) { return credential_cases[i].bytes; }

static uint64_t credential_encode(size_t i, uint8_t *space, size_t space_len)
{
    return sievelast_credential_encode(credential_cases[i].fields, space, space_len);
}

static int credential_decoded(size_t i, const uint8_t *record, size_t record_len)
{
    struct sievelast_credential_decoded d = sievelast_credential_decode(record, record_len);
    return d.row == SIEVELAST_GRANTED && same_credential(d.fields, credential_cases[i].fields);
}

static int credential_refused(const uint8_t *record, size_t record_len)
{
    struct sievelast_credential_decoded d = sievelast_credential_decode(record, record_len);
    return d.row == SIEVELAST_ROW_RECORDS && same_credential(d.fields, credential_cases[0].fields);
}

static const char *request_bytes(size_t i) { return request_cases[i].bytes; }

static uint64_t request_encode(size_t i, uint8_t *space, size_t space_len)
{
    return sievelast_request_encode(request_cases[i].fields, space, space_len);
}

static int request_decoded(size_t i, const uint8_t *record, size_t record_len)
{
    struct sievelast_request_decoded d = sievelast_request_decode(record, record_len);
    return d.row == SIEVELAST_GRANTED && same_request(d.fields, request_cases[i].fields);
}

static int request_refused(const uint8_t *record, size_t record_len)
{
    struct sievelast_request_decoded d = sievelast_request_decode(record, record_len);
    return d.row == SIEVELAST_ROW_RECORDS && same_request(d.fields, request_cases[0].fields);
}

static const char *group_bytes(size_t i) { return group_cases[i].bytes; }

static uint64_t group_encode(size_t i, uint8_t *space, size_t space_len)
{
    return sievelast_group_request_encode(group_cases[i].fields, group_cases[i].member, space, space_len);
}

static int group_decoded(size_t i, const uint8_t *record, size_t record_len)
{
    struct sievelast_group_request_decoded d = sievelast_group_request_decode(record, record_len);
    return d.row == SIEVELAST_GRANTED && same_request(d.fields, group_cases[i].fields) && d.member == group_cases[i].member;
}

static int group_refused(const uint8_t *record, size_t record_len)
{
    struct sievelast_group_request_decoded d = sievelast_group_request_decode(record, record_len);
    return d.row == SIEVELAST_ROW_RECORDS && same_request(d.fields, group_cases[0].fields) && d.member == 0;
}

static const struct record records[] = {
    {"credential", SIEVELAST_CREDENTIAL_BYTES, 15, sizeof credential_cases / sizeof *credential_cases, credential_bytes,
     credential_encode, credential_decoded, credential_refused},
    {"request", SIEVELAST_REQUEST_BYTES, 0, sizeof request_cases / sizeof *request_cases, request_bytes, request_encode,
     request_decoded, request_refused},
    {"group's request", SIEVELAST_GROUP_REQUEST_BYTES, 0, sizeof group_cases / sizeof *group_cases, group_bytes, group_encode,
     group_decoded, group_refused},
};

/* Case i at an address, with some bytes of space behind it: written as by hand, nothing beside it touched, and read back. */
static void written(const struct record *r, size_t i, size_t at, size_t behind)
{
    uint8_t space[ALIGNMENTS + 2 * ROOM], hand[ROOM] = {0};
    memset(space, FILL, sizeof space);
    EXPECT_IN(unhex(r->bytes(i), hand) == r->length, "%s: case %zu", r->name, i);
    EXPECT_IN(r->encode(i, space + at, r->length + behind) == SIEVELAST_GRANTED, "%s: case %zu at %zu", r->name, i, at);
    EXPECT_IN(!memcmp(space + at, hand, r->length), "%s: case %zu at %zu", r->name, i, at);
    EXPECT_IN(all(space, at, FILL), "%s: case %zu at %zu", r->name, i, at);
    EXPECT_IN(all(space + at + r->length, sizeof space - at - r->length, FILL), "%s: case %zu at %zu", r->name, i, at);
    EXPECT_IN(r->decoded(i, space + at, r->length), "%s: case %zu at %zu", r->name, i, at);
}

/* Every space that is too short is refused and keeps every byte. */
static void short_spaces(const struct record *r, size_t i)
{
    uint8_t space[ROOM];
    memset(space, FILL, sizeof space);
    for (size_t length = 0; length < r->length; length++)
        EXPECT_IN(r->encode(i, space, length) == SIEVELAST_ROW_SPACE && all(space, sizeof space, FILL),
                  "%s: case %zu into %zu bytes", r->name, i, length);
    EXPECT(r->encode(i, NULL, 0) == SIEVELAST_ROW_SPACE);
}

/* Every other length is refused; the bytes lie in memory of exactly that length. */
static void other_lengths(const struct record *r, size_t i)
{
    uint8_t hand[2 * ROOM] = {0};
    unhex(r->bytes(i), hand);
    for (size_t length = 0; length <= sizeof hand; length++) {
        uint8_t *exact = session_memory(length ? length : 1);
        memcpy(exact, hand, length);
        EXPECT_IN(length == r->length ? r->decoded(i, exact, length) : r->refused(exact, length), "%s: case %zu of %zu bytes",
                  r->name, i, length);
        free(exact);
    }
    EXPECT(r->refused(NULL, 0));
}

/* Every other mark, and every other value of the zero byte. */
static void other_marks(const struct record *r, size_t i)
{
    uint8_t hand[ROOM] = {0}, mark[2];
    unhex(r->bytes(i), hand);
    memcpy(mark, hand, sizeof mark);
    for (unsigned x = 0; x <= 0xffff; x++) {
        hand[0] = (uint8_t)(x >> 8);
        hand[1] = (uint8_t)x;
        EXPECT_IN(memcmp(hand, mark, sizeof mark) ? r->refused(hand, r->length) : r->decoded(i, hand, r->length),
                  "%s: case %zu, mark %04x", r->name, i, x);
    }
    memcpy(hand, mark, sizeof mark);
    for (unsigned x = 1; r->zero && x <= 0xff; x++) {
        hand[r->zero] = (uint8_t)x;
        EXPECT_IN(r->refused(hand, r->length), "%s: case %zu, zero byte %02x", r->name, i, x);
    }
}

static void every_record(void)
{
    for (const struct record *r = records; r < records + sizeof records / sizeof *records; r++) {
        for (size_t i = 0; i < r->cases; i++) {
            for (size_t at = 0; at < ALIGNMENTS; at++)
                written(r, i, at, at * 4 % (ROOM - r->length));
            short_spaces(r, i);
            other_lengths(r, i);
        }
        other_marks(r, 0);
        other_marks(r, r->cases - 1);
    }
}

/* A request and a group's request of the same fields: alike but for the mark and the member, and each decoder refuses the other's. */
static void two_forms(void)
{
    uint8_t plain[ROOM], group[ROOM];
    for (size_t i = 0; i < sizeof request_cases / sizeof *request_cases; i++) {
        memset(plain, 0, sizeof plain), memset(group, 0, sizeof group);
        EXPECT(sievelast_request_encode(request_cases[i].fields, plain, sizeof plain) == SIEVELAST_GRANTED);
        EXPECT(sievelast_group_request_encode(request_cases[i].fields, 0x01020304, group, sizeof group) == SIEVELAST_GRANTED);
        EXPECT(plain[0] == group[0] && plain[1] == 0x52 && group[1] == 0x47 && !memcmp(plain + 2, group + 2, 26));
        EXPECT(!memcmp(group + 28, "\1\2\3\4", 4) && all(plain + 28, ROOM - 28, 0));
        for (size_t length = 27; length <= 33; length++) {
            EXPECT(length == 28 ? request_decoded(i, plain, length) : request_refused(plain, length));
            EXPECT(request_refused(group, length) && group_refused(plain, length));
            EXPECT((sievelast_group_request_decode(group, length).row == SIEVELAST_GRANTED) == (length == 32));
        }
    }
}

/* ---- results */
static void results(void)
{
    uint8_t bytes[ALIGNMENTS + ROOM];
    for (size_t at = 0; at < ALIGNMENTS; at++) {
        unhex("fedcba98 76543210", bytes + at);
        struct sievelast_looked l = sievelast_look_decode(bytes + at, SIEVELAST_LOOK_BYTES);
        struct sievelast_versioned v = sievelast_version_decode(bytes + at, SIEVELAST_NEW_VERSION_BYTES);
        EXPECT(l.row == SIEVELAST_GRANTED && l.size == 0xfedcba98 && l.version == 0x76543210);
        EXPECT(v.row == SIEVELAST_GRANTED && v.version == 0xfedcba98);
    }
    for (size_t length = 0; length <= ROOM; length++) {
        struct sievelast_looked l = sievelast_look_decode(length ? bytes : NULL, length);
        struct sievelast_versioned v = sievelast_version_decode(length ? bytes : NULL, length);
        if (length != SIEVELAST_LOOK_BYTES)
            EXPECT(l.row == SIEVELAST_ROW_RECORDS && l.size == 0 && l.version == 0);
        if (length != SIEVELAST_NEW_VERSION_BYTES)
            EXPECT(v.row == SIEVELAST_ROW_RECORDS && v.version == 0);
    }
}

/* ---- random fields */
static struct sievelast_credential random_credential(void)
{
    struct sievelast_credential c = {.expiry = random_bits(),
                                     .object = (uint32_t)random_bits(),
                                     .version = (uint32_t)random_bits(),
                                     .first = (uint32_t)random_bits(),
                                     .end = (uint32_t)random_bits(),
                                     .holder = (uint32_t)random_bits(),
                                     .rights = (uint16_t)random_bits(),
                                     .partition = (uint8_t)random_bits(),
                                     .slot = (uint8_t)random_bits(),
                                     .least = (uint8_t)random_bits()};
    return c;
}

static struct sievelast_request random_request(void)
{
    struct sievelast_request r = {.time = random_bits(),
                                  .count = (uint32_t)random_bits(),
                                  .a = (uint32_t)random_bits(),
                                  .b = (uint32_t)random_bits(),
                                  .data_len = (uint32_t)random_bits(),
                                  .operation = (uint8_t)random_bits(),
                                  .level = (uint8_t)random_bits()};
    return r;
}

/* Decoding what was encoded gives the fields again. */
static void read_back(void)
{
    uint8_t space[ROOM];
    for (int i = 0; i < 10000; i++) {
        struct sievelast_credential c = random_credential();
        struct sievelast_request r = random_request();
        EXPECT(sievelast_credential_encode(c, space, sizeof space) == SIEVELAST_GRANTED);
        EXPECT(same_credential(sievelast_credential_decode(space, SIEVELAST_CREDENTIAL_BYTES).fields, c));
        EXPECT(sievelast_request_encode(r, space, sizeof space) == SIEVELAST_GRANTED);
        EXPECT(same_request(sievelast_request_decode(space, SIEVELAST_REQUEST_BYTES).fields, r));
        EXPECT(sievelast_group_request_encode(r, c.object, space, sizeof space) == SIEVELAST_GRANTED);
        struct sievelast_group_request_decoded g = sievelast_group_request_decode(space, SIEVELAST_GROUP_REQUEST_BYTES);
        EXPECT(g.row == SIEVELAST_GRANTED && same_request(g.fields, r) && g.member == c.object);
    }
}

/* Would rows 3 and 4 let the credential by? */
static int within_values(struct sievelast_credential c)
{
    return c.partition <= 3 && c.slot <= 4 && c.rights <= 0xff && c.least <= 2 && (c.slot <= 2 || c.partition == 0);
}

/* The issuer writes the encoder's bytes and gives the HMAC of them; fields outside their values it refuses. */
static void issued(void)
{
    uint8_t key[SIEVELAST_KEY_BYTES], encoded[ROOM], written_bytes[ROOM], digest[SIEVELAST_DIGEST_BYTES];
    int granted = 0, refused = 0;
    for (int i = 0; i < 4000; i++) {
        struct sievelast_credential c = random_credential();
        c.partition %= 5, c.slot %= 6, c.least %= 4, c.rights &= 0x1ff;
        memset(key, i, sizeof key);
        memset(encoded, FILL, sizeof encoded);
        memset(written_bytes, FILL, sizeof written_bytes);
        struct sievelast_issued answer = sievelast_issue(c, key, sizeof key, written_bytes, sizeof written_bytes);
        if (within_values(c)) {
            granted++;
            EXPECT(answer.row == SIEVELAST_GRANTED);
            EXPECT(sievelast_credential_encode(c, encoded, sizeof encoded) == SIEVELAST_GRANTED);
            test_hmac(key, sizeof key, encoded, SIEVELAST_CREDENTIAL_BYTES, digest);
            EXPECT(!memcmp(answer.key, digest, sizeof digest));
        } else {
            refused++;
            EXPECT(answer.row == SIEVELAST_ROW_RECORDS && all(answer.key, sizeof answer.key, 0));
        }
        EXPECT(!memcmp(written_bytes, encoded, sizeof encoded));
    }
    EXPECT(granted > 500 && refused > 500);
}

/* ---- what the drive reads from a frame: the encoded fields, shown by what is granted, and done, and what is not */
enum { MEDIUM = 4096, NUMBER = 7, SIZE = 40, FROM = 5, LENGTH = 10 };

/* Object NUMBER of SIZE bytes, LENGTH of them written from FROM on: operation, a, b and data_len. */
static uint32_t operations_read(struct session *s)
{
    session_credential(s, SIEVELAST_SLOT_BLACK, 0, SESSION_FIRST_VERSION);
    session_request(s, SIEVELAST_CREATE, NUMBER, SIZE);
    EXPECT_ROW(s, SIEVELAST_GRANTED);
    uint32_t version = session_version(s);
    session_credential(s, SIEVELAST_SLOT_BLACK, NUMBER, version);
    session_request(s, SIEVELAST_LOOK, 0, 0);
    EXPECT_ROW(s, SIEVELAST_GRANTED);
    struct sievelast_looked l = sievelast_look_decode(s->reply + s->checked.start, s->checked.length);
    EXPECT(l.row == SIEVELAST_GRANTED && l.size == SIZE && l.version == version && version == SESSION_FIRST_VERSION + 1);
    session_request(s, SIEVELAST_WRITE, FROM, LENGTH);
    EXPECT_ROW(s, SIEVELAST_GRANTED);
    EXPECT(all(s->medium, FROM, 0) && !memcmp(s->medium + FROM, s->data, LENGTH));
    EXPECT(all(s->medium + FROM + LENGTH, MEDIUM - FROM - LENGTH, 0));
    session_request(s, SIEVELAST_READ, FROM + 1, LENGTH - 1);
    EXPECT_ROW(s, SIEVELAST_GRANTED);
    EXPECT(s->checked.length == LENGTH - 1 && !memcmp(s->reply + s->checked.start, s->data + 1, LENGTH - 1));
    session_request(s, SIEVELAST_READ, SIZE - 1, 2);
    EXPECT_ROW(s, SIEVELAST_ROW_PAST_SIZE);
    session_request(s, SIEVELAST_RAISE, 0, 0);
    EXPECT_ROW(s, SIEVELAST_GRANTED);
    EXPECT(session_version(s) == version + 1);
    return version + 1;
}

/* Level: what the reply has. Time and count: the window, and each nonce once. */
static void request_read(struct session *s, uint32_t version)
{
    session_credential(s, SIEVELAST_SLOT_BLACK, NUMBER, version);
    for (uint8_t level = SIEVELAST_LEVEL_RECORDS; level <= SIEVELAST_LEVEL_REPLY; level++) {
        s->request.level = level;
        session_request(s, SIEVELAST_READ, 0, LENGTH);
        EXPECT_ROW(s, SIEVELAST_GRANTED);
        EXPECT(s->answered.length == SIEVELAST_REPLY_HEAD_BYTES + LENGTH +
                                         (level == SIEVELAST_LEVEL_REPLY ? SIEVELAST_DIGEST_BYTES : 0));
    }
    EXPECT_ROW(s, SIEVELAST_ROW_REPLAYED);
    s->request.count += 1;
    EXPECT_ROW(s, SIEVELAST_GRANTED);
    s->request.time = s->clock - SIEVELAST_TIME_WINDOW;
    EXPECT_ROW(s, SIEVELAST_GRANTED);
    s->request.time--;
    EXPECT_ROW(s, SIEVELAST_ROW_UNTIMELY);
    s->request.time = s->clock + SIEVELAST_TIME_WINDOW;
    EXPECT_ROW(s, SIEVELAST_GRANTED);
    s->request.time++;
    EXPECT_ROW(s, SIEVELAST_ROW_UNTIMELY);
}

/* Asks for the written bytes once more, by the present credential. */
static void read_again(struct session *s, uint64_t row, int line)
{
    session_request(s, SIEVELAST_READ, FROM, LENGTH);
    session_expect(s, row, line);
}
#define EXPECT_READ(s, row) read_again(s, row, __LINE__)

/* Each field of the credential at the last value that opens the object, and at the next. */
static void credential_read(struct session *s, uint32_t version)
{
    struct sievelast_credential *c = &s->credential;
    session_credential(s, SIEVELAST_SLOT_GOLD, NUMBER, version);
    c->rights = SIEVELAST_RIGHT(SIEVELAST_READ), c->first = FROM, c->end = FROM + LENGTH, c->expiry = s->clock;
    EXPECT_READ(s, SIEVELAST_GRANTED);
    c->slot = SIEVELAST_SLOT_BLACK, EXPECT_READ(s, SIEVELAST_GRANTED);
    c->expiry--, EXPECT_READ(s, SIEVELAST_ROW_EXPIRED), c->expiry++;
    c->rights ^= SIEVELAST_EVERY_RIGHT, EXPECT_READ(s, SIEVELAST_ROW_RIGHT_MISSING), c->rights ^= SIEVELAST_EVERY_RIGHT;
    c->object++, EXPECT_READ(s, SIEVELAST_ROW_NO_OBJECT), c->object--;
    c->version--, EXPECT_READ(s, SIEVELAST_ROW_VERSION), c->version++;
    c->first++, EXPECT_READ(s, SIEVELAST_ROW_RANGE), c->first--;
    c->end--, EXPECT_READ(s, SIEVELAST_ROW_RANGE), c->end++;
    c->partition++, EXPECT_READ(s, SIEVELAST_ROW_KEY_UNSET), c->partition--;
    EXPECT_READ(s, SIEVELAST_GRANTED);
    c->holder = UINT32_MAX, EXPECT_ROW(s, SIEVELAST_GRANTED);
    EXPECT_ROW(s, SIEVELAST_ROW_REPLAYED);
    /* of one holder, time and count, a look at the object and one at the partition */
    session_request(s, SIEVELAST_LOOK, 0, 0);
    c->rights = SIEVELAST_RIGHT(SIEVELAST_LOOK), EXPECT_ROW(s, SIEVELAST_GRANTED);
    c->object = 0, c->version = SESSION_FIRST_VERSION, EXPECT_ROW(s, SIEVELAST_GRANTED);
    EXPECT_ROW(s, SIEVELAST_ROW_REPLAYED);
    c->object = NUMBER, c->version = version, EXPECT_ROW(s, SIEVELAST_ROW_REPLAYED);
    c->rights = SIEVELAST_RIGHT(SIEVELAST_READ);
    /* a frame under the least level is not even built */
    c->least = SIEVELAST_LEVEL_REPLY, EXPECT_READ(s, SIEVELAST_GRANTED);
    s->request.level = SIEVELAST_LEVEL_DATA;
    session_ask(s);
    EXPECT(s->built.row == SIEVELAST_ROW_RECORDS && s->built.length == 0 && s->answered.row == SIEVELAST_ROW_FRAME_SHORT);
}

/* A table loaded, through its frame and reply, is what the next frames are judged by: a mask's higher byte first, and one of level. */
static void table_read(struct session *s, uint32_t version)
{
    uint8_t table[SIEVELAST_TABLE_BYTES];
    unhex("0005 01  0002 00  0004 00  0008 00  0010 00  0020 00  0040 01", table);
    for (uint8_t level = SIEVELAST_LEVEL_DATA; level <= SIEVELAST_LEVEL_REPLY; level++) {
        s->request.level = level;
        EXPECT(session_load_table(s, table) == SIEVELAST_GRANTED && s->built.length == SIEVELAST_LEAST_FRAME_BYTES + SIEVELAST_TABLE_BYTES);
        EXPECT(s->checked.row == SIEVELAST_GRANTED && s->checked.start == SIEVELAST_REPLY_HEAD_BYTES && s->checked.length == 0);
    }
    s->request.level = SIEVELAST_LEVEL_RECORDS; /* under what an operation needs by document 01's rule no frame is built, .. */
    EXPECT(session_load_table(s, table) == SIEVELAST_ROW_FRAME_SHORT && s->built.row == SIEVELAST_ROW_RECORDS);
    session_credential(s, SIEVELAST_SLOT_BLACK, NUMBER, version);
    EXPECT_READ(s, SIEVELAST_ROW_LEVEL_LOW); /* .. and under what the partition's table asks for the drive refuses it */
    s->request.level = SIEVELAST_LEVEL_DATA;
    s->credential.rights = SIEVELAST_RIGHT(SIEVELAST_READ), EXPECT_READ(s, SIEVELAST_ROW_RIGHT_MISSING);
    s->credential.rights |= SIEVELAST_RIGHT(SIEVELAST_LOOK), EXPECT_READ(s, SIEVELAST_GRANTED);
    table[0] = 1;
    EXPECT(session_load_table(s, table) == SIEVELAST_ROW_TABLE && s->built.row == SIEVELAST_GRANTED);
}

/* ---- the same through a group: the members are NUMBER, MISSING, which is not there, and the group itself */
enum { GROUP = 9, MISSING = 8, MEMBERS = 3 };

/* The group, created and its list written; its version. */
static uint32_t group_made(struct session *s)
{
    const uint8_t *data = s->data;
    uint8_t list[MEMBERS * SIEVELAST_MEMBER_BYTES];
    session_credential(s, SIEVELAST_SLOT_BLACK, 0, SESSION_FIRST_VERSION);
    session_request(s, SIEVELAST_CREATE, GROUP, sizeof list);
    EXPECT_ROW(s, SIEVELAST_GRANTED);
    uint32_t version = session_version(s);
    session_group(s, SIEVELAST_SLOT_BLACK, GROUP, version, NUMBER);
    EXPECT_READ(s, SIEVELAST_ROW_GROUP_LIST);
    unhex("00000007 00000008 00000009", list);
    s->data = list;
    session_credential(s, SIEVELAST_SLOT_BLACK, GROUP, version);
    session_request(s, SIEVELAST_WRITE, 0, sizeof list);
    EXPECT_ROW(s, SIEVELAST_GRANTED);
    s->data = data;
    return version;
}

/* A look at NUMBER through the group, which has a version of its own. */
static void group_looked(struct session *s, uint32_t version)
{
    session_request(s, SIEVELAST_LOOK, 0, 0);
    EXPECT_ROW(s, SIEVELAST_GRANTED);
    struct sievelast_looked l = sievelast_look_decode(s->reply + s->checked.start, s->checked.length);
    EXPECT(l.row == SIEVELAST_GRANTED && l.size == SIZE && l.version == version && version != s->credential.version);
}

static void group_read(struct session *s, uint32_t version)
{
    uint32_t group_version = group_made(s);
    session_group(s, SIEVELAST_SLOT_GOLD, GROUP, group_version, NUMBER);
    for (uint8_t level = SIEVELAST_LEVEL_RECORDS; level <= SIEVELAST_LEVEL_REPLY; level++) {
        s->request.level = level;
        EXPECT_READ(s, SIEVELAST_GRANTED);
        EXPECT(s->built.length == SIEVELAST_GROUP_FRAME_BYTES && !memcmp(s->reply + s->checked.start, s->data, LENGTH));
        session_request(s, SIEVELAST_WRITE, FROM, LENGTH);
        EXPECT_ROW(s, SIEVELAST_GRANTED);
        EXPECT(s->built.length == SIEVELAST_GROUP_FRAME_BYTES + LENGTH);
        group_looked(s, version);
    }
    EXPECT_ROW(s, SIEVELAST_ROW_REPLAYED);
    s->member = GROUP, EXPECT_ROW(s, SIEVELAST_ROW_REPLAYED); /* under one time and count, of whichever member */
    EXPECT_READ(s, SIEVELAST_ROW_PAST_SIZE);
    s->member = MISSING, EXPECT_READ(s, SIEVELAST_ROW_NO_MEMBER);
    s->member = GROUP + 1, EXPECT_READ(s, SIEVELAST_ROW_NOT_MEMBER);
    s->member = NUMBER, EXPECT_READ(s, SIEVELAST_GRANTED);
    s->credential.end = FROM + LENGTH - 1, EXPECT_READ(s, SIEVELAST_ROW_RANGE);
    s->credential.version = version, EXPECT_READ(s, SIEVELAST_ROW_VERSION);
    session_group(s, SIEVELAST_SLOT_BLACK, GROUP, group_version, NUMBER);
    session_request(s, SIEVELAST_RAISE, 0, 0); /* what no group credential does is not even built */
    session_ask(s);
    EXPECT(s->built.row == SIEVELAST_ROW_RECORDS && s->answered.row == SIEVELAST_ROW_FRAME_SHORT);
    session_credential(s, SIEVELAST_SLOT_BLACK, GROUP, group_version);
    session_request(s, SIEVELAST_RAISE, 0, 0);
    EXPECT_ROW(s, SIEVELAST_GRANTED);
    session_group(s, SIEVELAST_SLOT_BLACK, GROUP, group_version, NUMBER), EXPECT_READ(s, SIEVELAST_ROW_VERSION);
}

/* Every record that went to the drive, decoded, gives the fields that the session asked with. */
static void take_and_decode(struct session *s, const char *call, session_step *step)
{
    const uint8_t *request = s->frame + SIEVELAST_CREDENTIAL_BYTES;
    session_take(s, call, step);
    if (step != session_gate || s->built.row != SIEVELAST_GRANTED)
        return;
    EXPECT(same_credential(sievelast_credential_decode(s->frame, SIEVELAST_CREDENTIAL_BYTES).fields, s->credential));
    struct sievelast_group_request_decoded g = sievelast_group_request_decode(request, SIEVELAST_GROUP_REQUEST_BYTES);
    struct sievelast_request_decoded r = sievelast_request_decode(request, SIEVELAST_REQUEST_BYTES);
    EXPECT(g.row == (s->grouped ? SIEVELAST_GRANTED : SIEVELAST_ROW_RECORDS) && r.row == SIEVELAST_ROW_RECORDS - g.row);
    EXPECT(same_request(s->grouped ? g.fields : r.fields, s->request) && (!s->grouped || g.member == s->member));
}

static void drive_reads(void)
{
    struct session *s = session_new(MEDIUM);
    uint8_t data[SIZE];
    for (size_t i = 0; i < sizeof data; i++)
        data[i] = (uint8_t)(i + 1);
    s->data = data;
    s->take = take_and_decode;
    EXPECT(session_start(s) == SIEVELAST_GRANTED);
    uint32_t version = operations_read(s);
    request_read(s, version);
    credential_read(s, version);
    s->request.level = SIEVELAST_LEVEL_REPLY;
    group_read(s, version);
    table_read(s, version);
    session_credential(s, SIEVELAST_SLOT_BLACK, NUMBER, version);
    session_request(s, SIEVELAST_DELETE, 0, 0);
    EXPECT_ROW(s, SIEVELAST_GRANTED);
    EXPECT_READ(s, SIEVELAST_ROW_NO_OBJECT);
    session_free(s);
}

int main(void)
{
    constants();
    layouts();
    row_texts();
    every_record();
    two_forms();
    results();
    read_back();
    issued();
    drive_reads();
    return expected("records");
}
