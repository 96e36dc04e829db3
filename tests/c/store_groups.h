/* One credential for a stack of logs, for store_test.c: rows 32 to 34, and what a group credential makes of the other rows. Every call goes
 * through put, and so is compared with document 01 in C; the rows expected here were written from change 6 beside it. */
#ifndef TESTS_STORE_GROUPS_H
#define TESTS_STORE_GROUPS_H

/* The drive of these tests has in partition 0 the logs OBJECT (20 bytes), OTHER (40) and THIRD (4), and the group STACK. Its list has
 * OBJECT, OTHER, MISSING, which does not exist, and STACK itself, but not THIRD. Versions are 2 to 5, the partition's is 1. */
enum {
    STACK = 100,
    MISSING = 77,
    OTHER_SIZE = 40,
    THIRD_SIZE = 4,
    OTHER_VERSION = 3,
    THIRD_VERSION,
    STACK_VERSION,
    STACK_PLACE = 3, /* in the table */
    STACK_SIZE = 16,
    STACK_AT = 96, /* the last of the quarter's areas: the group may take the rest */
    MOST_LIST = QUARTER - STACK_AT
};
static const uint32_t stack_list[] = {OBJECT, OTHER, MISSING, STACK};
static const char other_log[OTHER_SIZE + 1] = "log 4712, 298 mm top, 4.9 m, a bit bent.";

/* What the group holds from now on, whatever its length. */
static void put_stack(const uint8_t *bytes, size_t n)
{
    table_of(&drive, 0)[SIZES_AT + STACK_PLACE] = (uint32_t)n;
    memcpy(medium + STACK_AT, bytes, n);
}

static void put_list(const uint32_t *numbers, size_t n)
{
    uint8_t bytes[MOST_LIST];
    for (size_t i = 0; i < n; i++)
        put_number(bytes + SIEVELAST_MEMBER_BYTES * i, SIEVELAST_MEMBER_BYTES, numbers[i]);
    put_stack(bytes, SIEVELAST_MEMBER_BYTES * n);
}

static void create_log(uint32_t number, uint32_t size)
{
    ask(SIEVELAST_CREATE, 0, 1, number, size), make(black, NULL);
    EXPECT_NUMBER(row(), 0);
}

/* The drive, with the group as it is created. */
static void ready_logs(void)
{
    ready(1);
    create_log(OTHER, OTHER_SIZE);
    create_log(THIRD, THIRD_SIZE);
    create_log(STACK, STACK_SIZE);
    ask(SIEVELAST_WRITE, OTHER, OTHER_VERSION, 0, OTHER_SIZE), make(black, (const uint8_t *)other_log), EXPECT_NUMBER(row(), 0);
    const uint32_t *t = table_of(&drive, 0);
    EXPECT(t[NUMBERS_AT + STACK_PLACE] == STACK && t[STARTS_AT + STACK_PLACE] == STACK_AT && t[VERSIONS_AT + STACK_PLACE] == STACK_VERSION);
}

static void ready_stack(void)
{
    ready_logs();
    put_list(stack_list, sizeof stack_list / sizeof *stack_list);
}

/* A request through the group. */
static void ask_member(int operation, uint32_t number, uint32_t a, uint32_t b)
{
    ask(operation, STACK, STACK_VERSION, a, b);
    who.rights |= SIEVELAST_GROUP_RIGHT;
    grouped = 1;
    member = number;
}

/* Its row, through issuer, encoder and builder. */
static uint64_t member_row(int operation, uint32_t number, uint32_t a, uint32_t b, const char *data)
{
    ask_member(operation, number, a, b);
    make(black, (const uint8_t *)data);
    return row();
}

static uint64_t look_row(uint32_t number) { return member_row(SIEVELAST_LOOK, number, 0, 0, NULL); }

/* ---- what is reached */
/* The last reply is a grant's of n bytes of result, at level 2 with the digest of 36 and 32 bytes of records, head and result. */
static void replied(int level, const void *result, size_t n)
{
    enum { RECORDS = SIEVELAST_CREDENTIAL_BYTES + SIEVELAST_GROUP_REQUEST_BYTES, HEAD = SIEVELAST_REPLY_HEAD_BYTES };
    uint8_t covered[RECORDS + HEAD + OTHER_SIZE], key[SIEVELAST_KEY_BYTES], digest[SIEVELAST_DIGEST_BYTES];
    size_t length = HEAD + n + (level == SIEVELAST_LEVEL_REPLY ? sizeof digest : 0);
    EXPECT(!n || !memcmp(last_reply + HEAD, result, n));
    EXPECT_NUMBER(last_reply[length], FILL);
    test_hmac(black, sizeof black, frame, SIEVELAST_CREDENTIAL_BYTES, key);
    memcpy(covered, frame, RECORDS);
    memcpy(covered + RECORDS, last_reply, HEAD + n);
    test_hmac(key, sizeof key, covered, RECORDS + HEAD + n, digest);
    EXPECT(level < SIEVELAST_LEVEL_REPLY || !memcmp(last_reply + HEAD + n, digest, sizeof digest));
    struct sievelast_checked c = sievelast_check(frame, SIEVELAST_CREDENTIAL_BYTES, frame + SIEVELAST_CREDENTIAL_BYTES,
                                                 SIEVELAST_GROUP_REQUEST_BYTES, key, sizeof key, last_reply, length);
    EXPECT(c.row == 0 && c.start == HEAD && c.length == n);
}

/* Asks once more, at a level. */
static void granted_at(int level, const void *data, const void *result, size_t n)
{
    what.level = (uint8_t)level;
    make(black, data);
    EXPECT_NUMBER(frame_len, SIEVELAST_GROUP_FRAME_BYTES + what.data_len);
    EXPECT_NUMBER(row(), 0);
    replied(level, result, n);
    EXPECT_NUMBER(row(), 12);
}

/* A read, a write and a look through the group are the member's, and so is what its own credential then reads. */
static void members_reached(void)
{
    static const uint8_t looked[] = {0, 0, 0, OTHER_SIZE, 0, 0, 0, OTHER_VERSION}, own[] = {0, 0, 0, STACK_SIZE, 0, 0, 0, STACK_VERSION};
    for (int level = 0; level <= SIEVELAST_LEVEL_REPLY; level++) {
        ready_stack();
        ask_member(SIEVELAST_READ, OTHER, 0, OTHER_SIZE), granted_at(level, NULL, other_log, OTHER_SIZE);
        ask_member(SIEVELAST_READ, OBJECT, 4, 4), granted_at(level, NULL, "4711", 4);
        ask_member(SIEVELAST_WRITE, OTHER, 4, 4), granted_at(level, "4799", NULL, 0);
        ask_member(SIEVELAST_READ, OTHER, 0, 8), granted_at(level, NULL, "log 4799", 8);
        ask_member(SIEVELAST_READ, OTHER, OTHER_SIZE, 0), granted_at(level, NULL, NULL, 0);
        ask_member(SIEVELAST_LOOK, OTHER, 0, 0), granted_at(level, NULL, looked, sizeof looked);
        ask_member(SIEVELAST_LOOK, STACK, 0, 0), granted_at(level, NULL, own, sizeof own);
        ask(SIEVELAST_READ, OTHER, OTHER_VERSION, 0, 8), what.level = SIEVELAST_LEVEL_RECORDS, make(black, NULL), EXPECT_NUMBER(row(), 0);
        EXPECT(!memcmp(last_reply + SIEVELAST_REPLY_HEAD_BYTES, "log 4799", 8));
        EXPECT(!memcmp(medium + STACK_AT, "\0\0\0\1\0\0\0\5\0\0\0\x4d\0\0\0\x64", STACK_SIZE));
    }
}

/* The way of a group: created it is zeros, and no list; the list is written by a credential for the group's own bytes. */
static void list_written(void)
{
    uint8_t list[STACK_SIZE];
    for (size_t i = 0; i < sizeof stack_list / sizeof *stack_list; i++)
        put_number(list + SIEVELAST_MEMBER_BYTES * i, SIEVELAST_MEMBER_BYTES, stack_list[i]);
    ready_logs();
    EXPECT_NUMBER(look_row(OBJECT), 32);
    ask(SIEVELAST_WRITE, STACK, STACK_VERSION, 0, STACK_SIZE / 2), make(black, list), EXPECT_NUMBER(row(), 0);
    EXPECT_NUMBER(look_row(OBJECT), 32);
    ask(SIEVELAST_WRITE, STACK, STACK_VERSION, 0, STACK_SIZE), make(black, list), EXPECT_NUMBER(row(), 0);
    EXPECT_NUMBER(look_row(OBJECT), 0);
    ask(SIEVELAST_READ, STACK, STACK_VERSION, 0, STACK_SIZE), make(black, NULL), EXPECT_NUMBER(row(), 0);
    EXPECT(!memcmp(last_reply + SIEVELAST_REPLY_HEAD_BYTES, list, sizeof list));
}

/* ---- rows 2, 3 and 5: a group's request has 32 bytes */
static void lengths_from(size_t from, size_t right)
{
    struct lending l = lending();
    for (l.frame_len = from; l.frame_len <= SIEVELAST_GROUP_FRAME_BYTES + what.data_len + 4; l.frame_len++) {
        snprintf(under_way, sizeof under_way, "%zu bytes of %zu", l.frame_len, right);
        EXPECT_NUMBER(put(l).row, l.frame_len < 96 ? 2 : l.frame_len != right ? 5 : 0);
    }
    *under_way = 0;
}

static void group_lengths(void)
{
    ready_stack();
    ask_member(SIEVELAST_LOOK, OTHER, 0, 0), make(black, NULL), lengths_from(90, 100);
    ask_member(SIEVELAST_READ, OTHER, 0, 5), make(black, NULL), lengths_from(90, 100);
    for (uint32_t n = 0; n <= 9; n++)
        ask_member(SIEVELAST_WRITE, OTHER, 0, n), make(black, (const uint8_t *)other_log), lengths_from(90, 100 + n);
    ask_read(0, 5), make(black, NULL), lengths_from(90, 96);
    ask(SIEVELAST_WRITE, OBJECT, 2, 0, 3), make(black, (const uint8_t *)other_log), lengths_from(90, 99);
    ask_member(SIEVELAST_LOOK, OTHER, 0, 0), make(black, NULL), frame[63] = 4; /* n: a look has no data */
    struct lending l = lending();
    l.frame_len = 104, EXPECT_NUMBER(put(l).row, 5);
}

/* The request's mark, every value of either byte: at 100 bytes and at 96, with a group credential and without. */
static void group_marks(void)
{
    ready_stack();
    for (uint32_t i = 0; i < 4 * 512; i++) {
        uint32_t x = i % 512, right = x < 256 ? 0x4c00 | x : (x - 256) << 8 | 0x47, is_group = i < 2 * 512, is_long = i / 512 % 2;
        ask_member(SIEVELAST_LOOK, OTHER, 0, 0), make(black, NULL);
        put_number(frame + 36, 2, right);
        frame[13] = (uint8_t)(is_group ? 0xff : 0x7f);
        struct lending l = lending();
        l.frame_len = is_long ? 100 : 96;
        uint64_t known = right == 0x4c47 || right == 0x4c52, fits = (right == 0x4c47) == is_long;
        snprintf(under_way, sizeof under_way, "mark %04" PRIx32 " at %zu bytes, rights %02x", right, l.frame_len, frame[13]);
        uint64_t misfits = (right == 0x4c47) != is_group;
        EXPECT_NUMBER(put(l).row, !known ? 3 : !fits ? 5 : misfits ? 6 : is_group && is_long ? 0 : 9);
    }
    *under_way = 0;
}

/* ---- rows 4, 6 and 13: the rights. Bit 7 is allowed, and goes with the request's form; no operation needs it. */
static void group_rights(void)
{
    ready_stack();
    struct sievelast_drive kept = drive;
    for (uint32_t rights = 0; rights < 0x210; rights++)
        for (int form = 0; form <= 1; form++) {
            uint32_t bits = rights <= 0x200 ? rights : (uint32_t)1 << (rights - 0x200); /* then each bit alone */
            drive = kept;
            ask_member(SIEVELAST_LOOK, OTHER, 0, 0);
            who.rights = (uint16_t)bits;
            grouped = form;
            snprintf(under_way, sizeof under_way, "rights %#" PRIx32 " and request %d", bits, form);
            int misfits = (bits & 0x80) / 0x80 != (uint32_t)form;
            EXPECT_NUMBER(row_signed(seed), bits > 0xff ? 4 : misfits ? 6 : bits & 4 ? 0 : 13);
        }
    *under_way = 0;
}

/* ---- row 6 */
/* An operation that no row but 6 refuses, but for the form of credential and request. */
static uint64_t formed_row(int operation, int slot, int group_who, int group_what, uint32_t object)
{
    struct sievelast_drive kept = drive;
    ask_under(MINE, slot, operation);
    what.a = operation == SIEVELAST_CREATE ? NEW : what.a;
    if (object)
        who.object = object, who.version = STACK_VERSION;
    who.rights = (uint16_t)(SIEVELAST_EVERY_RIGHT | (group_who ? SIEVELAST_GROUP_RIGHT : 0));
    grouped = group_what;
    member = OBJECT;
    snprintf(under_way, sizeof under_way, "operation %d under slot %d: group %d, request %d, object %" PRIu32, operation, slot, group_who,
             group_what, object);
    uint64_t r = row_signed(operation == SIEVELAST_LOAD_TABLE ? odd : seed);
    *under_way = 0;
    drive = kept;
    put_list(stack_list, sizeof stack_list / sizeof *stack_list);
    return r;
}

static void group_misfits_row(void)
{
    ready_stack();
    every_key();
    for (int op = SIEVELAST_READ; op <= SIEVELAST_LOAD_TABLE; op++) {
        int slot = op >= SIEVELAST_SET_KEY ? SIEVELAST_SLOT_PARTITION : SIEVELAST_SLOT_GOLD, reaches = op <= SIEVELAST_LOOK;
        uint32_t object = reaches ? STACK : 0;
        EXPECT_NUMBER(formed_row(op, slot, 0, 0, object), 0);
        EXPECT_NUMBER(formed_row(op, slot, 1, 1, object), reaches ? 0 : 6); /* operations over 3 */
        EXPECT_NUMBER(formed_row(op, slot, 1, 1, STACK), reaches ? 0 : 6);
        EXPECT_NUMBER(formed_row(op, slot, 1, 0, object), 6); /* such a credential with a 4C 52 request .. */
        EXPECT_NUMBER(formed_row(op, slot, 0, 1, object), 6); /* .. or the reverse */
        EXPECT_NUMBER(formed_row(op, slot, 0, 1, STACK), 6);
        for (int over = SIEVELAST_SLOT_PARTITION; reaches && over <= SIEVELAST_SLOT_MASTER; over++)
            EXPECT_NUMBER(formed_row(op, over, 1, 1, object), 6); /* the old lines hold too */
    }
}

/* Object 0, a look's A and B, and what comes before and behind row 6. */
static void group_misfits_fields(void)
{
    ready_stack();
    for (int op = SIEVELAST_READ; op <= SIEVELAST_LOOK; op++) {
        ask_member(op, OBJECT, 0, 0), who.object = 0, who.version = 1, EXPECT_NUMBER(row_signed(seed), 6);
        ask_member(op, OBJECT, 0, 0), who.object = STACK << 24, EXPECT_NUMBER(row_signed(seed), 14);
    }
    ask_member(SIEVELAST_LOOK, OBJECT, 1, 0), EXPECT_NUMBER(row_signed(seed), 6);
    ask_member(SIEVELAST_LOOK, OBJECT, 0, 1), EXPECT_NUMBER(row_signed(seed), 6);
    ask_member(9, OBJECT, 0, 0), EXPECT_NUMBER(row_signed(seed), 4);
    ask_member(SIEVELAST_RAISE, OBJECT, 0, 0), what.data_len = 1, EXPECT_NUMBER(row_signed(seed), 5);
    ask_member(SIEVELAST_RAISE, OBJECT, 0, 0), who.least = 2, what.level = 1, EXPECT_NUMBER(row_signed(seed), 6);
    ask_member(SIEVELAST_LOOK, OBJECT, 0, 0), who.least = 2, what.level = 1, EXPECT_NUMBER(row_signed(seed), 7);
    ask_member(SIEVELAST_LOOK, OBJECT, 0, 0), who.slot = SIEVELAST_SLOT_GOLD, EXPECT_NUMBER(row_signed(seed), 8);
}

/* ---- row 9: the digest covers all 32 bytes of the request, at every level */
static void group_digest(void)
{
    ready_stack();
    for (int level = 0; level <= SIEVELAST_LEVEL_REPLY; level++) {
        ask_member(SIEVELAST_WRITE, OTHER, 0, 2), what.level = (uint8_t)level, make(black, (const uint8_t *)"ab");
        for (size_t at = 40; at < frame_len; at++) {
            int n = at >= 60 && at < 64, covered = at < 68 || at >= 70 || level > 0, b = at >= 56 && at < 60; /* n and B: row 4 or 5 */
            snprintf(under_way, sizeof under_way, "byte %zu at level %d", at, level);
            if (covered && !n && !b)
                EXPECT_NUMBER(row_with(at, (uint8_t)(frame[at] ^ 0x11)), 9);
        }
        *under_way = 0;
        EXPECT_NUMBER(row(), 0);
    }
}

/* ---- rows 14 and 15: the group's */
static uint64_t raise_row(uint32_t object, uint32_t version)
{
    ask(SIEVELAST_RAISE, object, version, 0, 0), make(black, NULL);
    return row();
}

static void group_versions(void)
{
    static const uint8_t raised[] = {0, 0, 0, OTHER_SIZE, 0, 0, 0, STACK_VERSION + 1};
    ready_stack();
    ask_member(SIEVELAST_LOOK, OTHER, 0, 0), who.object = MISSING, make(black, NULL), EXPECT_NUMBER(row(), 14);
    ask_member(SIEVELAST_LOOK, OTHER, 0, 0), who.version = OTHER_VERSION, make(black, NULL), EXPECT_NUMBER(row(), 15);
    ask_member(SIEVELAST_LOOK, OTHER, 0, 0), who.version = 1, make(black, NULL), EXPECT_NUMBER(row(), 15);
    EXPECT_NUMBER(raise_row(OTHER, OTHER_VERSION), 0);
    ask(SIEVELAST_LOOK, OTHER, OTHER_VERSION, 0, 0), make(black, NULL), EXPECT_NUMBER(row(), 15);
    ask_member(SIEVELAST_LOOK, OTHER, 0, 0), granted_at(SIEVELAST_LEVEL_REPLY, NULL, raised, sizeof raised); /* its new version */
    EXPECT_NUMBER(raise_row(STACK, STACK_VERSION), 0);
    EXPECT_NUMBER(look_row(OTHER), 15);
    ask_member(SIEVELAST_LOOK, OTHER, 0, 0), who.version = STACK_VERSION + 2, make(black, NULL), EXPECT_NUMBER(row(), 0);
    EXPECT_NUMBER(raise_row(0, 1), 0); /* the partition's version is nobody's here */
    ask_member(SIEVELAST_LOOK, OTHER, 0, 0), who.version = STACK_VERSION + 2, make(black, NULL), EXPECT_NUMBER(row(), 0);
    ask(SIEVELAST_DELETE, STACK, STACK_VERSION + 2, 0, 0), make(black, NULL), EXPECT_NUMBER(row(), 0);
    ask_member(SIEVELAST_LOOK, OTHER, 0, 0), who.version = STACK_VERSION + 2, make(black, NULL), EXPECT_NUMBER(row(), 14);
}

/* ---- row 32: lists, by their bytes; the member is OBJECT, number 1. Spaces mean nothing. */
static const struct { const char *bytes; uint64_t row; } lists[] = {
    {"00000001", 0}, {"00000002", 33}, {"00000000", 32}, {"ffffffff", 33}, {"01000000", 33},
    {"00000001 00000002", 0}, {"00000001 ffffffff", 0}, {"fffffffe ffffffff", 33},
    {"00000001 00000001", 32}, {"00000002 00000002", 32}, {"ffffffff ffffffff", 32}, {"00000002 00000001", 32}, {"00000001 00000000", 32},
    {"00000000 00000001", 32}, {"00000000 00000000", 32}, {"ffffffff 00000001", 32},
    {"00000001 00000002 00000002", 32}, {"00000001 00000003 00000002", 32}, {"00000001 00000005 00000003 00000007", 32},
    {"00000001 00000002 00000003 00000004 00000004", 32}, {"00000001 00000002 00000003 00000004 00000000", 32},
    {"00000002 00000001 00000003", 32}, {"00000003 00000004 00000001", 32},
    /* the highest byte is the first, and all four count */
    {"00000001 000000ff 00000100", 0}, {"00000001 00000100 000000ff", 32}, {"00000001 0000ffff 00010000", 0},
    {"00000001 00010000 0000ffff", 32}, {"00000001 00ffffff 01000000", 0}, {"00000001 01000000 00ffffff", 32},
    {"00000001 7fffffff 80000000", 0}, {"00000001 80000000 7fffffff", 32}, {"00000001 01000001", 0}, {"00000101 00000201", 33},
    /* other bytes behind, or bytes that are missing */
    {"00", 32}, {"01", 32}, {"0000", 32}, {"000001", 32}, {"00000001 00", 32}, {"00000001 ff", 32}, {"00000001 0000", 32},
    {"00000001 000002", 32}, {"00000001 00000002 03", 32}, {"00000001 00000002 ffff", 32}, {"00000001 00000002 000000", 32},
};

static size_t list_bytes(const char *text, uint8_t *bytes)
{
    unsigned x;
    size_t n = 0;
    for (; *text; text++)
        if (*text != ' ' && sscanf(text, "%2x", &x) == 1)
            bytes[n++] = (uint8_t)x, text++;
    return n;
}

static void lists_judged(void)
{
    uint8_t bytes[MOST_LIST];
    ready_stack();
    struct sievelast_drive kept = drive;
    for (size_t i = 0; i < sizeof lists / sizeof *lists; i++) {
        drive = kept;
        put_stack(bytes, list_bytes(lists[i].bytes, bytes));
        snprintf(under_way, sizeof under_way, "the list %s", lists[i].bytes);
        EXPECT_NUMBER(look_row(OBJECT), lists[i].row);
        EXPECT_NUMBER(member_row(SIEVELAST_READ, OBJECT, 0, 4, NULL), lists[i].row);
        EXPECT_NUMBER(member_row(SIEVELAST_WRITE, OBJECT, 0, 4, "log "), lists[i].row);
    }
    *under_way = 0;
}

/* Every list of up to four of five numbers, and every member of six. Each pair of a list is looked at, not its neighbours alone. */
enum { NUMBERS = 5 };
static const uint32_t numbers[NUMBERS + 1] = {0, OBJECT, OTHER, THIRD, MISSING, STACK};

static uint64_t row_by_pairs(const uint32_t *list, size_t n, uint32_t number)
{
    int has = 0;
    for (size_t i = 0; i < n; i++) {
        for (size_t j = 0; j < i; j++)
            if (list[j] >= list[i])
                return 32;
        if (list[i] == 0)
            return 32;
        has |= list[i] == number;
    }
    return !has ? 33 : number == MISSING ? 34 : 0;
}

static void every_list(size_t most)
{
    ready_stack();
    struct sievelast_drive kept = drive;
    for (size_t n = 1, all = NUMBERS; n <= most; n++, all *= NUMBERS)
        for (size_t which = 0; which < all; which++) {
            uint32_t list[4];
            for (size_t i = 0, left = which; i < n; i++, left /= NUMBERS)
                list[i] = numbers[left % NUMBERS];
            drive = kept;
            put_list(list, n);
            for (size_t m = 0; m <= NUMBERS; m++) {
                snprintf(under_way, sizeof under_way, "list %zu of %zu numbers, member %" PRIu32, which, n, numbers[m]);
                EXPECT_NUMBER(look_row(numbers[m]), row_by_pairs(list, n, numbers[m]));
            }
        }
    *under_way = 0;
}

/* Lists as long as the group may be here, cut at every byte, with a fault at every number in turn. */
static void list_lengths(void)
{
    enum { MOST_NUMBERS = MOST_LIST / SIEVELAST_MEMBER_BYTES };
    uint8_t bytes[MOST_LIST] = {0};
    ready_stack();
    struct sievelast_drive kept = drive;
    for (uint32_t i = 0; i < MOST_NUMBERS; i++)
        put_number(bytes + SIEVELAST_MEMBER_BYTES * i, SIEVELAST_MEMBER_BYTES, 2 * i + 1);
    for (size_t n = 1; n <= MOST_LIST; n++) {
        drive = kept, put_stack(bytes, n);
        snprintf(under_way, sizeof under_way, "a list of %zu bytes", n);
        EXPECT_NUMBER(look_row(OBJECT), n % 4 ? 32 : 0);
    }
    for (size_t i = 0; i < MOST_NUMBERS; i++) {
        uint8_t *at = bytes + SIEVELAST_MEMBER_BYTES * i;
        snprintf(under_way, sizeof under_way, "number %zu of a long list is another", i);
        put_number(at, SIEVELAST_MEMBER_BYTES, i ? 2 * i - 1 : 0), drive = kept, put_stack(bytes, SIEVELAST_MEMBER_BYTES * MOST_NUMBERS);
        EXPECT_NUMBER(look_row(OBJECT), 32); /* the one before it */
        put_number(at, SIEVELAST_MEMBER_BYTES, 2 * i + 2), drive = kept, put_stack(bytes, SIEVELAST_MEMBER_BYTES * MOST_NUMBERS);
        EXPECT_NUMBER(look_row(OBJECT), i ? 0 : 33); /* one more than it was, and still less than the next */
        put_number(at, SIEVELAST_MEMBER_BYTES, 2 * i + 3), drive = kept, put_stack(bytes, SIEVELAST_MEMBER_BYTES * MOST_NUMBERS);
        EXPECT_NUMBER(look_row(OBJECT), i + 1 < MOST_NUMBERS ? 32 : 0); /* the next */
        put_number(at, SIEVELAST_MEMBER_BYTES, 2 * i + 1);
    }
    *under_way = 0;
}

/* ---- rows 33 and 34 */
static void members_judged(void)
{
    static const struct { uint32_t member; uint64_t row; } cases[] = {
        {OBJECT, 0}, {OTHER, 0}, {STACK, 0}, {MISSING, 34}, {THIRD, 33}, {0, 33}, {2, 33}, {MISSING + 1, 33}, {UINT32_MAX, 33},
        {(uint32_t)OBJECT << 24, 33}, {OTHER << 8, 33}, {(uint32_t)1 << 31 | OBJECT, 33},
    };
    ready_stack();
    for (size_t i = 0; i < sizeof cases / sizeof *cases; i++) {
        snprintf(under_way, sizeof under_way, "member %" PRIu32, cases[i].member);
        EXPECT_NUMBER(look_row(cases[i].member), cases[i].row);
        EXPECT_NUMBER(member_row(SIEVELAST_READ, cases[i].member, 0, 4, NULL), cases[i].row);
        EXPECT_NUMBER(member_row(SIEVELAST_WRITE, cases[i].member, 0, 4, "\0\0\0\1"), cases[i].row);
    }
    *under_way = 0;
    create_log(MISSING, 3);
    EXPECT_NUMBER(look_row(MISSING), 0);
    ask(SIEVELAST_DELETE, OBJECT, 2, 0, 0), make(black, NULL), EXPECT_NUMBER(row(), 0);
    EXPECT_NUMBER(look_row(OBJECT), 34);
    EXPECT_NUMBER(look_row(OTHER), 0); /* the delete moved it in the table */
}

/* A list is not followed: through STACK the other group's bytes are read, and none of its members reached. */
static void lists_not_followed(void)
{
    static const uint32_t inner[] = {THIRD}, outer[] = {OBJECT, OTHER};
    ready_stack();
    put_list(outer, 2);
    ask(SIEVELAST_WRITE, OTHER, OTHER_VERSION, 0, OTHER_SIZE), make(black, (const uint8_t *)other_log), EXPECT_NUMBER(row(), 0);
    put_number(medium + NEXT, 4, inner[0]);
    table_of(&drive, 0)[SIZES_AT + 1] = sizeof inner;
    EXPECT_NUMBER(look_row(THIRD), 33);
    ask_member(SIEVELAST_READ, OTHER, 0, 4), granted_at(SIEVELAST_LEVEL_REPLY, NULL, "\0\0\0\x09", 4);
    ask_member(SIEVELAST_LOOK, THIRD, 0, 0), who.object = OTHER, who.version = OTHER_VERSION, make(black, NULL), EXPECT_NUMBER(row(), 0);
}

/* ---- rows 16 and 17: the range counts in the member's bytes, and the size is the member's, however long the group is */
static uint64_t range_row(uint32_t number, uint32_t a, uint32_t b, uint32_t first, uint32_t end)
{
    ask_member(SIEVELAST_READ, number, a, b);
    who.first = first;
    who.end = end;
    make(black, NULL);
    return row();
}

static void group_ranges(void)
{
    uint32_t many[MOST_LIST / SIEVELAST_MEMBER_BYTES];
    ready_stack();
    EXPECT_NUMBER(range_row(OTHER, 20, 10, 20, 30), 0);
    EXPECT_NUMBER(range_row(OTHER, 30, 0, 20, 30), 0);
    EXPECT_NUMBER(range_row(OTHER, 20, 11, 20, 30), 16);
    EXPECT_NUMBER(range_row(OTHER, 19, 2, 20, 30), 16);
    EXPECT_NUMBER(range_row(OTHER, 31, 0, 20, 30), 16);
    EXPECT_NUMBER(range_row(OTHER, 1, UINT32_MAX, 0, UINT32_MAX), 16);
    EXPECT_NUMBER(range_row(OTHER, 0, OTHER_SIZE, 0, UINT32_MAX), 0);  /* longer than the group, which has 16 bytes */
    EXPECT_NUMBER(range_row(OTHER, 0, OTHER_SIZE + 1, 0, UINT32_MAX), 17);
    EXPECT_NUMBER(range_row(OTHER, OTHER_SIZE + 1, 0, 0, UINT32_MAX), 17);
    EXPECT_NUMBER(range_row(OBJECT, 0, SIZE, 0, SIZE), 0);
    EXPECT_NUMBER(range_row(OBJECT, 0, SIZE + 1, 0, UINT32_MAX), 17);
    EXPECT_NUMBER(range_row(OBJECT, 0, SIZE + 1, 0, SIZE), 16);
    EXPECT_NUMBER(range_row(STACK, 0, STACK_SIZE, 0, UINT32_MAX), 0);
    EXPECT_NUMBER(range_row(STACK, 0, STACK_SIZE + 1, 0, UINT32_MAX), 17);
    for (uint32_t i = 0; i < sizeof many / sizeof *many; i++)
        many[i] = i + 1;
    put_list(many, sizeof many / sizeof *many);
    EXPECT_NUMBER(range_row(THIRD, 0, THIRD_SIZE, 0, UINT32_MAX), 0);
    EXPECT_NUMBER(range_row(THIRD, 0, THIRD_SIZE + 1, 0, UINT32_MAX), 17); /* shorter than the group */
    EXPECT_NUMBER(range_row(OTHER, 0, OTHER_SIZE, 0, UINT32_MAX), 0);
    EXPECT_NUMBER(range_row(OTHER, OTHER_SIZE, 1, 0, UINT32_MAX), 17);
}

/* ---- row 12: the nonce's object is the group */
static uint64_t nonce_row(int through, uint32_t object, uint32_t version, uint32_t number, uint32_t count)
{
    ask(SIEVELAST_LOOK, object, version, 0, 0);
    if (through)
        who.rights |= SIEVELAST_GROUP_RIGHT;
    grouped = through;
    member = number;
    what.count = count;
    build(black, NULL);
    return row();
}

static void group_nonces(void)
{
    enum { COUNT = 1u << 30 };
    ready_stack();
    EXPECT_NUMBER(nonce_row(1, STACK, STACK_VERSION, OTHER, COUNT), 0);
    EXPECT_NUMBER(entry_at(drive.entries, drive.lengths[0] - 1)[ENTRY_OBJECT], STACK);
    EXPECT_NUMBER(nonce_row(1, STACK, STACK_VERSION, OTHER, COUNT), 12);
    EXPECT_NUMBER(nonce_row(1, STACK, STACK_VERSION, OBJECT, COUNT), 12); /* another member */
    EXPECT_NUMBER(nonce_row(1, STACK, STACK_VERSION, MISSING, COUNT), 12);
    EXPECT_NUMBER(nonce_row(0, STACK, STACK_VERSION, 0, COUNT), 12); /* the group's own bytes */
    EXPECT_NUMBER(nonce_row(0, OTHER, OTHER_VERSION, 0, COUNT), 0); /* the member by its own credential */
    EXPECT_NUMBER(nonce_row(0, OTHER, OTHER_VERSION, 0, COUNT), 12);
    EXPECT_NUMBER(nonce_row(1, STACK, STACK_VERSION, MISSING, COUNT + 1), 34); /* refused, and not entered */
    EXPECT_NUMBER(nonce_row(0, STACK, STACK_VERSION, 0, COUNT + 1), 0);
    EXPECT_NUMBER(nonce_row(1, STACK, STACK_VERSION, OTHER, COUNT + 1), 12);
    EXPECT_NUMBER(nonce_row(0, OTHER, OTHER_VERSION, 0, COUNT + 2), 0);
    EXPECT_NUMBER(nonce_row(1, STACK, STACK_VERSION, OTHER, COUNT + 2), 0); /* another object's */
}

/* ---- a write through the group into its own list: judged by the list that was there, and from then on the new one counts */
static void own_list(void)
{
    ready_stack();
    EXPECT_NUMBER(member_row(SIEVELAST_WRITE, STACK, 4, 4, "\0\0\0\x09"), 0); /* THIRD for OTHER */
    EXPECT_NUMBER(look_row(OTHER), 33);
    EXPECT_NUMBER(look_row(THIRD), 0);
    EXPECT_NUMBER(member_row(SIEVELAST_WRITE, STACK, 12, 4, "\0\0\0\x65"), 0); /* it lists itself no more */
    EXPECT_NUMBER(member_row(SIEVELAST_WRITE, STACK, 12, 4, "\0\0\0\x64"), 33);
    EXPECT_NUMBER(look_row(OBJECT), 0);
    ready_stack();
    EXPECT_NUMBER(member_row(SIEVELAST_WRITE, STACK, 0, 4, "\0\0\0\x06"), 0); /* and now it is no list */
    EXPECT_NUMBER(look_row(OTHER), 32);
    EXPECT_NUMBER(member_row(SIEVELAST_WRITE, STACK, 0, 4, "\0\0\0\1"), 32);
    ask(SIEVELAST_WRITE, STACK, STACK_VERSION, 0, 4), make(black, (const uint8_t *)"\0\0\0\1"), EXPECT_NUMBER(row(), 0);
    EXPECT_NUMBER(look_row(OTHER), 0);
    ask_member(SIEVELAST_READ, STACK, 0, STACK_SIZE), granted_at(SIEVELAST_LEVEL_DATA, NULL, medium + STACK_AT, STACK_SIZE);
}

/* ---- which row comes first: a frame that meets every row from one of a list on, then one less, and so on */
static const uint8_t group_order[] = {10, 11, 12, 13, 14, 15, 32, 33, 34, 16, 17, 22, 23, 0};
enum { IN_ORDER = sizeof group_order - 1 };

/* Whether the frame meets a row, where those before `from` are put right. */
static int meets(int from, uint64_t right)
{
    int place = 0;
    while (group_order[place] != right)
        place++;
    return place >= from;
}

/* The list makes rows 32 to 34 as they are to be: none; without the member; with one that is missing; with one that is there. */
static uint32_t order_list(int from)
{
    static const uint32_t bad[] = {OTHER, OBJECT}, without[] = {OBJECT, THIRD}, with[] = {OBJECT, OTHER, MISSING};
    uint32_t number = meets(from, 34) ? MISSING : OBJECT;
    if (meets(from, 32))
        put_list(bad, 2);
    else if (meets(from, 33))
        put_list(without, 2);
    else
        put_list(with, 3);
    return number;
}

static void order_frame(int from)
{
    ask_member(SIEVELAST_READ, order_list(from), 0, meets(from, 17) ? SIZE + 1 : 4);
    who.expiry = meets(from, 10) ? CLOCK - 1 : CLOCK;
    what.time = meets(from, 11) ? CLOCK - SIEVELAST_TIME_WINDOW - 1 : CLOCK;
    who.rights = (uint16_t)(SIEVELAST_GROUP_RIGHT | (meets(from, 13) ? 0 : SIEVELAST_RIGHT(SIEVELAST_READ)));
    who.object = meets(from, 14) ? MISSING : STACK;
    who.version = meets(from, 15) ? STACK_VERSION + 1 : STACK_VERSION;
    who.end = meets(from, 16) ? 3 : UINT32_MAX;
}

/* The last entry becomes the frame's, though no grant made it. */
static void enter_frame(void)
{
    size_t last = drive.lengths[0] - 1;
    uint32_t *entry = entry_at(drive.entries, last);
    drive.times[last] = what.time;
    entry[ENTRY_SLOT] = who.slot;
    entry[ENTRY_HOLDER] = who.holder;
    entry[ENTRY_COUNT] = what.count;
    entry[ENTRY_OBJECT] = who.object;
}

static void order_of_groups(void)
{
    for (int from = 0; from <= IN_ORDER; from++) {
        ready_stack();
        while (meets(from, 22) && drive.lengths[0] < SIEVELAST_MOST_ENTRIES && !failures)
            ask_read(0, 1), make(black, NULL), EXPECT_NUMBER(row(), 0);
        order_frame(from);
        make(black, NULL);
        if (meets(from, 12))
            enter_frame();
        snprintf(under_way, sizeof under_way, "a frame that meets every row from %d on", group_order[from]);
        struct lending l = lending();
        l.reply_len = meets(from, 23) ? 0 : REPLY;
        EXPECT_NUMBER(put(l).row, group_order[from]);
    }
    *under_way = 0;
}

/* ---- what operations need: through a group no less and no more */
static void group_needs(void)
{
    static const int masks[] = {0x01, 0x02, 0x04};
    ready_stack();
    every_key();
    for (int op = SIEVELAST_READ; op <= SIEVELAST_LOOK; op++)
        for (uint32_t mask = 1; mask <= 0xff; mask++) { /* from 0x80 on as no load makes it: the bit counts as every other */
            struct need line = {mask, SIEVELAST_LEVEL_DATA};
            put_need(table_of(&drive, 0), op, line);
            struct sievelast_drive kept = drive;
            uint32_t less = (mask & (mask - 1)) | SIEVELAST_GROUP_RIGHT; /* without the lowest of them, but for the group's */
            ask_member(op, OBJECT, 0, 0), who.rights = (uint16_t)(mask | SIEVELAST_GROUP_RIGHT);
            EXPECT_NUMBER(row_signed(seed), 0), drive = kept;
            ask_member(op, OBJECT, 0, 0), who.rights = (uint16_t)less;
            EXPECT_NUMBER(row_signed(seed), mask & ~less ? 13 : 0), drive = kept;
            ask_member(op, OBJECT, 0, 0), what.level = SIEVELAST_LEVEL_RECORDS;
            EXPECT_NUMBER(row_signed(seed), 7), drive = kept;
            line.mask = (uint32_t)masks[op - 1], line.level = 0;
            put_need(table_of(&drive, 0), op, line);
        }
}

/* ---- every partition has its own group of this number, at its quarter's end; the neighbour's members are none of it */
static void stack_in(int partition, uint32_t start, uint32_t log)
{
    uint32_t *t = table_of(&drive, partition);
    empty_drive(&drive);
    drive.size = MEDIUM;
    every_key();
    memset(buffer, FILL, sizeof buffer);
    for (int p = 0; p < SIEVELAST_PARTITIONS; p++)
        table_of(&drive, p)[LAST_AT] = STACK_VERSION;
    add_object(t, STACK, STACK_VERSION, 2 * SIEVELAST_MEMBER_BYTES, start);
    add_object(t, log, 1, 5, (start + 100) % 200);
    t = table_of(&drive, (partition + 1) % SIEVELAST_PARTITIONS);
    add_object(t, STACK, STACK_VERSION, 2 * SIEVELAST_MEMBER_BYTES, start);
    add_object(t, log + 1, 1, 5, (start + 100) % 200);
    uint8_t *list = medium + partition * QUARTER + start;
    put_number(list, 4, log);
    put_number(list + 4, 4, log + 1);
}

static uint64_t row_in(int partition, int operation, uint32_t number, uint32_t b)
{
    ask_member(operation, number, 0, b);
    who.partition = (uint8_t)partition;
    return row_signed((const uint8_t *)"shape");
}

static void stacks_anywhere(void)
{
    for (uint32_t start = 0; start + 2 * SIEVELAST_MEMBER_BYTES <= QUARTER; start += start < 20 || start >= QUARTER - 20 ? 1 : 9)
        for (int p = 0; p < SIEVELAST_PARTITIONS; p++) {
            snprintf(under_way, sizeof under_way, "a group at %" PRIu32 " of partition %d", start, p);
            stack_in(p, start, OTHER);
            EXPECT_NUMBER(row_in(p, SIEVELAST_WRITE, OTHER, 5), 0);
            EXPECT_NUMBER(row_in(p, SIEVELAST_READ, OTHER, 5), 0);
            EXPECT(!memcmp(last_reply + SIEVELAST_REPLY_HEAD_BYTES, "shape", 5));
            EXPECT_NUMBER(row_in(p, SIEVELAST_LOOK, OTHER + 1, 0), 34); /* the neighbour has it */
            EXPECT_NUMBER(row_in((p + 1) % SIEVELAST_PARTITIONS, SIEVELAST_LOOK, OTHER + 1, 0), 32);
            EXPECT_NUMBER(row_in((p + 2) % SIEVELAST_PARTITIONS, SIEVELAST_LOOK, OTHER, 0), 14);
        }
    *under_way = 0;
}

/* ---- row 23 through a group, and frame and reply at every offset from the machine's alignment */
static void group_spaces(void)
{
    static const size_t results[] = {0, 9, 0, SIEVELAST_LOOK_BYTES};
    for (size_t i = 0; i < 64; i++) {
        int op = 1 + (int)(i % 3), level = (int)(i / 3 % 3);
        size_t length = SIEVELAST_REPLY_HEAD_BYTES + results[op] + (level == SIEVELAST_LEVEL_REPLY ? SIEVELAST_DIGEST_BYTES : 0);
        ready_stack();
        ask_member(op, OTHER, op == SIEVELAST_LOOK ? 0 : 3, op == SIEVELAST_LOOK ? 0 : 9), what.level = (uint8_t)level;
        make(black, (const uint8_t *)"new bytes");
        struct lending l = lending();
        l.frame_off = i % 8, l.reply_off = i / 8;
        l.reply_len = length - 1, EXPECT_NUMBER(put(l).row, 23);
        l.reply_len = length;
        struct sievelast_answered a = put(l);
        EXPECT_NUMBER(a.row, 0);
        EXPECT_NUMBER(a.length, length);
    }
}

/* ---- 4,096 numbers, on a medium of its own: too long to be copied for every other call */
enum {
    MANY = 4096,
    LONG_LOG = 8,
    LONG_QUARTER = SIEVELAST_MEMBER_BYTES * MANY + 2 * LONG_LOG,
    LONG_MEDIUM = SIEVELAST_PARTITIONS * LONG_QUARTER
};
static uint8_t long_medium[LONG_MEDIUM], long_right[LONG_MEDIUM];

/* Logs 1 and MANY, and a group of 1 to MANY behind them, up to the quarter's end. */
static void ready_long(void)
{
    uint32_t *t = table_of(&drive, 0);
    empty_drive(&drive);
    drive.size = LONG_MEDIUM;
    every_key();
    memset(long_medium, FILL, sizeof long_medium);
    t[LAST_AT] = STACK_VERSION;
    add_object(t, 1, 1, LONG_LOG, 0);
    add_object(t, MANY, 1, LONG_LOG, LONG_LOG);
    add_object(t, UINT32_MAX, STACK_VERSION, SIEVELAST_MEMBER_BYTES * MANY, 2 * LONG_LOG);
    for (uint32_t i = 0; i < MANY; i++)
        put_number(long_medium + 2 * LONG_LOG + SIEVELAST_MEMBER_BYTES * i, SIEVELAST_MEMBER_BYTES, i + 1);
}

static uint64_t long_row(uint32_t number)
{
    uint8_t reply[64], right_reply[64];
    struct sievelast_drive right = drive, before = drive;
    ask_member(SIEVELAST_READ, number, 0, LONG_LOG), who.object = UINT32_MAX;
    make(key_at(&drive, 0), NULL);
    memcpy(long_right, long_medium, sizeof long_right);
    memset(reply, FILL, sizeof reply), memset(right_reply, FILL, sizeof right_reply);
    struct sievelast_answered a = sievelast_gate(&drive, long_medium, LONG_MEDIUM, frame, frame_len, CLOCK, reply, sizeof reply);
    struct sievelast_answered b = paper_gate(&right, long_right, LONG_MEDIUM, frame, frame_len, CLOCK, right_reply, sizeof right_reply);
    EXPECT(a.row == b.row && a.length == b.length && !memcmp(reply, right_reply, sizeof reply));
    EXPECT(!memcmp(long_right, long_medium, sizeof long_right) && !record_difference(&before, &right, &drive));
    return answered(a.row, a.length).row;
}

/* A long list with number i another. */
static void long_list_with(size_t i, uint32_t number, uint64_t right)
{
    uint8_t *at = long_medium + 2 * LONG_LOG + SIEVELAST_MEMBER_BYTES * i;
    put_number(at, SIEVELAST_MEMBER_BYTES, number);
    snprintf(under_way, sizeof under_way, "number %zu of 4,096 is %" PRIu32, i, number);
    EXPECT_NUMBER(long_row(1), right);
    put_number(at, SIEVELAST_MEMBER_BYTES, i + 1);
    *under_way = 0;
}

static void long_lists(void)
{
    ready_long();
    EXPECT_NUMBER(long_row(1), 0);
    EXPECT_NUMBER(long_row(MANY), 0);
    EXPECT_NUMBER(long_row(MANY / 2), 34);
    EXPECT_NUMBER(long_row(MANY + 1), 33);
    EXPECT_NUMBER(long_row(UINT32_MAX), 33);
    long_list_with(0, 0, 32);
    long_list_with(1, 1, 32);
    long_list_with(MANY / 2, MANY / 2, 32);
    long_list_with(MANY / 2, MANY / 2 + 2, 32);
    long_list_with(MANY - 1, MANY - 1, 32);
    long_list_with(MANY - 1, 0, 32);
    long_list_with(MANY - 1, UINT32_MAX, 0);
    for (uint32_t cut = 1; cut <= SIEVELAST_MEMBER_BYTES; cut++) {
        table_of(&drive, 0)[SIZES_AT + 2] = SIEVELAST_MEMBER_BYTES * MANY - cut;
        EXPECT_NUMBER(long_row(1), cut % SIEVELAST_MEMBER_BYTES ? 32 : 0);
    }
    EXPECT_NUMBER(long_row(MANY), 33); /* the last one is gone */
}

static void groups(int all)
{
    members_reached();
    list_written();
    group_lengths();
    group_marks();
    group_rights();
    group_misfits_row();
    group_misfits_fields();
    group_digest();
    group_versions();
    lists_judged();
    every_list(all ? 4 : 3);
    list_lengths();
    members_judged();
    lists_not_followed();
    group_ranges();
    group_nonces();
    own_list();
    order_of_groups();
    group_needs();
    stacks_anywhere();
    group_spaces();
    long_lists();
}
#endif
