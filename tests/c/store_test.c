/* The drive for C: format, gate, issuer and HMAC, by hand-made calls for every row and edge, and by records spoiled in every part.
 * Each call of the gate is also put to document 01 in plain C (paper_drive.h), and everything that it left behind is compared.
 *
 *   store_test [ROUNDS]      so many rounds of spoiled records, 20 or more, without the largest lengths; 400 and all if left out */
#include "expect.h"
#include "lent.h"
#include "sievelast.h"
#include "spoil.h"

enum {
    MEDIUM = 1100, /* M: a quarter has room for 16 objects at multiples of 16 */
    QUARTER = MEDIUM / 4,
    BESIDE = 16, /* bytes of the medium's buffer on either side of it */
    REPLY = DRAFT_REPLY,
    FILL = 0xee,
    CLOCK = 100000,
    FEW_ROUNDS = 100, /* under so many, the long parts are spoiled in every 61st number and way alone */
    LONG_STEP = 61,
    OBJECT = 1, /* of partition 0; it has 20 bytes */
    SIZE = 20,
    NEXT = 32 /* where an object behind it starts */
};

static struct sievelast_drive drive;
static uint8_t buffer[BESIDE + MEDIUM + BESIDE], *const medium = buffer + BESIDE;
static uint8_t master[SIEVELAST_KEY_BYTES], drive_key[SIEVELAST_KEY_BYTES], partition_key[SIEVELAST_KEY_BYTES], black[SIEVELAST_KEY_BYTES];
static unsigned long answers[SIEVELAST_LAST_ROW + 1]; /* how often each row was the answer */
static uint8_t last_reply[REPLY];                     /* the reply space as the last call left it, as far as it goes */

static struct sievelast_answered answered(uint64_t row, uint64_t length)
{
    struct sievelast_answered a = {row, length};
    if (row <= SIEVELAST_LAST_ROW)
        answers[row]++;
    return a;
}

/* ---- a call, compared with the paper's in everything that it may touch, and in the bytes beside */
struct lending {
    const uint8_t *frame;
    size_t frame_len, reply_len, medium_len;
    uint64_t clock;
    size_t frame_off, reply_off; /* from the machine's alignment */
};

static struct lent filled(size_t length, size_t offset, const uint8_t *from)
{
    struct lent l = lend(length, offset);
    for (size_t i = 0; i < length; i++)
        l.bytes[i] = from ? from[i] : FILL;
    return l;
}

static int same_bytes(const struct lent *a, const struct lent *b) { return !a->length || !memcmp(a->bytes, b->bytes, a->length); }

static void record_as(struct sievelast_drive *before, struct sievelast_drive *right, uint64_t row)
{
    const char *differs = record_difference(before, right, &drive);
    if (row == 1)
        EXPECT(!memcmp(&drive, before, sizeof drive));
    else
        expect(!differs, differs ? differs : "the record", __LINE__);
}

static struct sievelast_answered put(struct lending l)
{
    struct sievelast_drive before = drive, right = drive;
    static uint8_t right_buffer[sizeof buffer];
    struct lent frame = filled(l.frame_len, l.frame_off, l.frame), reply = filled(l.reply_len, l.reply_off, NULL);
    struct lent right_reply = filled(l.reply_len, 0, NULL);
    memcpy(right_buffer, buffer, sizeof buffer);
    struct sievelast_answered b =
        paper_gate(&right, right_buffer + BESIDE, l.medium_len, l.frame, l.frame_len, l.clock, right_reply.bytes, l.reply_len);
    struct sievelast_answered a =
        sievelast_gate(&drive, medium, l.medium_len, frame.bytes, frame.length, l.clock, reply.bytes, reply.length);
    EXPECT_NUMBER(a.row, b.row);
    EXPECT_NUMBER(a.length, b.length);
    EXPECT(same_bytes(&reply, &right_reply));
    EXPECT(!memcmp(buffer, right_buffer, sizeof buffer));
    EXPECT(!frame.length || !memcmp(frame.bytes, l.frame, frame.length));
    record_as(&before, &right, b.row);
    if (reply.length)
        memcpy(last_reply, reply.bytes, reply.length < REPLY ? reply.length : REPLY);
    give_back(&frame), give_back(&reply), give_back(&right_reply);
    return answered(a.row, a.length);
}

/* ---- hand-made frames: issuer, encoder and builder */
static struct sievelast_credential who;
static struct sievelast_request what;
static int grouped;     /* the request is a group's, .. */
static uint32_t member; /* .. with this member */
static uint8_t frame[SIEVELAST_GROUP_FRAME_BYTES + 300], seed[SIEVELAST_SEED_BYTES] = "sixteen bytes ..";
static size_t frame_len;
static uint32_t next_count;

/* A frame of who and what, from the key of its slot. */
static void build(const uint8_t *slot_key, const uint8_t *data)
{
    uint8_t credential[SIEVELAST_CREDENTIAL_BYTES], request[SIEVELAST_GROUP_REQUEST_BYTES];
    size_t request_len = grouped ? SIEVELAST_GROUP_REQUEST_BYTES : SIEVELAST_REQUEST_BYTES;
    struct sievelast_issued i = sievelast_issue(who, slot_key, SIEVELAST_KEY_BYTES, credential, sizeof credential);
    EXPECT_NUMBER(i.row, 0);
    EXPECT_NUMBER(grouped ? sievelast_group_request_encode(what, member, request, request_len)
                          : sievelast_request_encode(what, request, request_len), 0);
    struct sievelast_built b = sievelast_build(credential, sizeof credential, request, request_len, data, what.data_len, i.key,
                                               SIEVELAST_KEY_BYTES, frame, sizeof frame);
    EXPECT_NUMBER(b.row, 0);
    frame_len = b.length;
}

/* The same with a new count. */
static void make(const uint8_t *slot_key, const uint8_t *data)
{
    what.count = next_count++;
    build(slot_key, data);
}

static struct lending lending(void)
{
    struct lending l = {frame, frame_len, REPLY, MEDIUM, CLOCK, 0, 0};
    return l;
}

static uint64_t row(void) { return put(lending()).row; }

/* A request of partition 0 under working key 0 on an object, at the clock reading. */
static void ask(int operation, uint32_t object, uint32_t version, uint32_t a, uint32_t b)
{
    struct sievelast_credential c = {CLOCK, object, version, 0, UINT32_MAX, 7, SIEVELAST_EVERY_RIGHT, 0, SIEVELAST_SLOT_BLACK, 0};
    struct sievelast_request r = {CLOCK, 0, a, b, operation == SIEVELAST_WRITE ? b : 0, (uint8_t)operation, SIEVELAST_LEVEL_REPLY};
    who = c;
    what = r;
    grouped = 0;
}

/* Operation 7 under a slot's key; the new key, as the manager knows it. */
static void set_key(uint8_t slot, uint32_t a, const uint8_t *slot_key, uint8_t new_key[SIEVELAST_KEY_BYTES])
{
    uint8_t message[SIEVELAST_REQUEST_BYTES + SIEVELAST_SEED_BYTES];
    ask(SIEVELAST_SET_KEY, 0, 0, a, 0);
    who.slot = slot;
    what.data_len = sizeof seed;
    make(slot_key, seed);
    EXPECT_NUMBER(row(), 0);
    sievelast_request_encode(what, message, sizeof message);
    memcpy(message + SIEVELAST_REQUEST_BYTES, seed, sizeof seed);
    struct sievelast_digest h = sievelast_hmac(slot_key, SIEVELAST_KEY_BYTES, message, sizeof message);
    EXPECT_NUMBER(h.row, 0);
    memcpy(new_key, h.bytes, SIEVELAST_KEY_BYTES);
}

static uint64_t format(size_t medium_len, uint32_t first, size_t master_len, size_t key_len)
{
    struct sievelast_drive right;
    static uint8_t right_buffer[sizeof buffer];
    memcpy(right_buffer, buffer, sizeof buffer);
    memset(&drive, FILL, sizeof drive); /* whatever was there is gone, places that no entry has too */
    uint64_t right_row = paper_format(&right, right_buffer + BESIDE, medium_len, first, master, master_len, drive_key, key_len);
    uint64_t found = sievelast_format(&drive, medium, medium_len, first, master, master_len, drive_key, key_len);
    const char *differs = record_difference(&right, &right, &drive);
    EXPECT_NUMBER(found, right_row);
    EXPECT(!memcmp(buffer, right_buffer, sizeof buffer));
    expect(!differs, differs ? differs : "the record", __LINE__);
    return answered(found, 0).row;
}

/* A drive with a partition key, working key 0 and one object, of version `first` + 1, which a write fills. */
static void ready(uint32_t first)
{
    memset(buffer, FILL, sizeof buffer);
    EXPECT_NUMBER(format(MEDIUM, first, SIEVELAST_KEY_BYTES, SIEVELAST_KEY_BYTES), 0);
    set_key(SIEVELAST_SLOT_DRIVE, 0, drive_key, partition_key);
    set_key(SIEVELAST_SLOT_PARTITION, 0, partition_key, black);
    if (first == UINT32_MAX)
        return;
    ask(SIEVELAST_CREATE, 0, first, OBJECT, SIZE), make(black, NULL), EXPECT_NUMBER(row(), 0);
    ask(SIEVELAST_WRITE, OBJECT, first + 1, 0, SIZE), make(black, (const uint8_t *)"log 4711, 312 mm top"), EXPECT_NUMBER(row(), 0);
}

/* All keys set, as no list of calls has to. */
static void every_key(void)
{
    for (size_t i = 0; i < sizeof drive.keys; i++)
        drive.keys[i] = i < FLAGS_AT ? (uint8_t)(i * 11 + 3) : 1;
}

static void ask_read(uint32_t a, uint32_t b) { ask(SIEVELAST_READ, OBJECT, 2, a, b); }

/* The frame at hand with one byte changed, to a value or by an exclusive or. */
static uint64_t row_with(size_t at, uint8_t value)
{
    uint8_t kept = frame[at];
    frame[at] = value;
    uint64_t r = row();
    frame[at] = kept;
    return r;
}

/* ---- rows 2 to 9, by bytes of a frame that is granted otherwise */
static void rows_of_the_frame(void)
{
    static const struct { uint64_t row; uint8_t at, value; } cases[] = {
        {3, 0, 0x4d}, {3, 1, 0}, {3, 36, 0}, {3, 37, 0x43}, /* marks */
        {4, 2, 4}, {4, 3, 5}, {4, 12, 1}, {4, 12, 0x80}, {4, 14, 3}, {4, 15, 1}, {4, 38, 0}, {4, 38, 9}, {4, 39, 3}, {4, 60, 1},
        {5, 63, 1}, {5, 38, SIEVELAST_WRITE}, {5, 38, SIEVELAST_SET_KEY}, {5, 38, SIEVELAST_LOAD_TABLE}, /* the data's length */
        {5, 37, 0x47}, /* a group's request is longer */
        {6, 3, SIEVELAST_SLOT_PARTITION}, {6, 7, 0}, {6, 38, SIEVELAST_CREATE}, {6, 38, SIEVELAST_LOOK}, {6, 38, SIEVELAST_DELETE},
        {6, 13, 0x80}, {6, 13, 0xff}, /* a group credential */
        {8, 3, SIEVELAST_SLOT_GOLD}, {8, 2, 3}, /* keys that nobody set */
        {9, 0 + 7, 9}, {9, 36 + 11, 1}, {9, 64, 0}, {9, 95, 0},
    };
    ready(1);
    ask_read(4, 8);
    make(black, NULL);
    for (size_t i = 0; i < sizeof cases / sizeof *cases; i++) {
        snprintf(under_way, sizeof under_way, "byte %d is %d", cases[i].at, cases[i].value);
        uint8_t value = cases[i].row == 9 && cases[i].at >= 64 ? (uint8_t)~frame[cases[i].at] : cases[i].value;
        EXPECT_NUMBER(row_with(cases[i].at, value), cases[i].row);
    }
    *under_way = 0;
    frame[2] = 1;
    EXPECT_NUMBER(row_with(3, SIEVELAST_SLOT_DRIVE), 4); /* slot 3 carries partition 0 */
    frame[2] = 0;
    EXPECT_NUMBER(row_with(39, SIEVELAST_LEVEL_RECORDS), 9);
    frame[14] = SIEVELAST_LEVEL_REPLY;
    EXPECT_NUMBER(row_with(39, SIEVELAST_LEVEL_DATA), 7);
    frame[14] = 0;
    EXPECT_NUMBER(row(), 0);
    EXPECT_NUMBER(row(), 12);
}

static void frame_lengths(void)
{
    struct lending l;
    ready(1);
    ask_read(4, 8);
    make(black, NULL);
    l = lending();
    l.frame_len = SIEVELAST_LEAST_FRAME_BYTES - 1, EXPECT_NUMBER(put(l).row, 2);
    l.frame_len = 0, EXPECT_NUMBER(put(l).row, 2);
    l.frame = NULL, EXPECT_NUMBER(put(l).row, 2);
    l = lending();
    l.frame_len++, EXPECT_NUMBER(put(l).row, 5);
    l = lending();
    l.medium_len = MEDIUM - 1, EXPECT_NUMBER(put(l).row, 1);
    l.medium_len = MEDIUM + 1, EXPECT_NUMBER(put(l).row, 1);
    l.medium_len = 0, EXPECT_NUMBER(put(l).row, 1);
    EXPECT_NUMBER(sievelast_gate(&drive, NULL, 0, NULL, 0, CLOCK, NULL, 0).row, 1);
    EXPECT_NUMBER(row(), 0);
    /* setting a key needs level 1; the builder would not make such a frame */
    ask(SIEVELAST_SET_KEY, 0, 0, 1, 0);
    who.slot = SIEVELAST_SLOT_PARTITION;
    what.data_len = sizeof seed;
    make(partition_key, seed);
    EXPECT_NUMBER(row_with(39, SIEVELAST_LEVEL_RECORDS), 7);
    EXPECT_NUMBER(row(), 0);
}

/* ---- rows 10 to 18 and 20, each by one field of a read or create that is granted without it */
static uint64_t read_row(uint32_t a, uint32_t b, uint32_t first, uint32_t end)
{
    ask_read(a, b);
    who.first = first;
    who.end = end;
    make(black, NULL);
    return row();
}

static void rows_of_the_fields(void)
{
    ready(1);
    ask_read(0, 4), who.expiry = CLOCK - 1, make(black, NULL), EXPECT_NUMBER(row(), 10);
    ask_read(0, 4), what.time = CLOCK - 5001, make(black, NULL), EXPECT_NUMBER(row(), 11);
    ask_read(0, 4), what.time = CLOCK + 5001, make(black, NULL), EXPECT_NUMBER(row(), 11);
    ask_read(0, 4), what.time = CLOCK - 5000, make(black, NULL), EXPECT_NUMBER(row(), 0);
    ask_read(0, 4), what.time = CLOCK + 5000, make(black, NULL), EXPECT_NUMBER(row(), 0);
    EXPECT_NUMBER(row(), 12);
    for (int op = SIEVELAST_READ; op <= SIEVELAST_DELETE; op++) {
        uint32_t creates = op == SIEVELAST_CREATE;
        ask(op, creates ? 0 : OBJECT, creates ? 1 : 2, creates, creates);
        who.rights = (uint16_t)(SIEVELAST_EVERY_RIGHT & ~SIEVELAST_RIGHT(op));
        make(black, NULL), EXPECT_NUMBER(row(), 13);
    }
    ask(SIEVELAST_READ, 9, 2, 0, 4), make(black, NULL), EXPECT_NUMBER(row(), 14);
    ask(SIEVELAST_READ, OBJECT, 1, 0, 4), make(black, NULL), EXPECT_NUMBER(row(), 15);
    ask(SIEVELAST_LOOK, 0, 2, 0, 0), make(black, NULL), EXPECT_NUMBER(row(), 15);
    EXPECT_NUMBER(read_row(8, 8, 8, 16), 0);
    EXPECT_NUMBER(read_row(16, 0, 8, 16), 0);
    EXPECT_NUMBER(read_row(8, 9, 8, 16), 16);
    EXPECT_NUMBER(read_row(17, 0, 8, 16), 16);
    EXPECT_NUMBER(read_row(7, 1, 8, 16), 16);
    EXPECT_NUMBER(read_row(1, UINT32_MAX, 0, UINT32_MAX), 16);
    EXPECT_NUMBER(read_row(0, SIZE, 0, UINT32_MAX), 0);
    EXPECT_NUMBER(read_row(1, SIZE, 0, UINT32_MAX), 17);
    EXPECT_NUMBER(read_row(SIZE + 1, 0, 0, UINT32_MAX), 17);
    ask(SIEVELAST_CREATE, 0, 1, OBJECT, 5), make(black, NULL), EXPECT_NUMBER(row(), 18);
    ask(SIEVELAST_CREATE, 0, 1, 2, QUARTER - NEXT + 1), make(black, NULL), EXPECT_NUMBER(row(), 20);
    ask(SIEVELAST_CREATE, 0, 1, 2, QUARTER - NEXT), make(black, NULL), EXPECT_NUMBER(row(), 0);
}

/* ---- rows 19, 21 and 22: of what a drive can hold */
/* A drive with every object that partition 0 can have; object i is of version i + 1, and so is object 0, the partition. */
static void ready_with_objects(void)
{
    ready(1);
    for (uint32_t i = 2; i <= SIEVELAST_MOST_OBJECTS; i++)
        ask(SIEVELAST_CREATE, 0, 1, i, 3), make(black, NULL), EXPECT_NUMBER(row(), 0);
}

static void rows_of_the_state(void)
{
    ready_with_objects();
    ask(SIEVELAST_CREATE, 0, 1, 17, 3), make(black, NULL), EXPECT_NUMBER(row(), 19);
    ask(SIEVELAST_DELETE, OBJECT, 2, 0, 0), make(black, NULL), EXPECT_NUMBER(row(), 0);
    ask(SIEVELAST_CREATE, 0, 1, 17, SIZE), make(black, NULL), EXPECT_NUMBER(row(), 0);
    ask(SIEVELAST_LOOK, 17, 18, 0, 0);
    while (drive.lengths[0] < SIEVELAST_MOST_ENTRIES && !failures)
        make(black, NULL), EXPECT_NUMBER(row(), 0);
    make(black, NULL), EXPECT_NUMBER(row(), 22);
    struct lending l = lending();
    l.clock = CLOCK + 5001; /* every entry is outlived, and so is the credential */
    EXPECT_NUMBER(put(l).row, 10);
    EXPECT_NUMBER(drive.lengths[0], 0);
    ready(UINT32_MAX);
    ask(SIEVELAST_RAISE, 0, UINT32_MAX, 0, 0), make(black, NULL), EXPECT_NUMBER(row(), 21);
    ask(SIEVELAST_CREATE, 0, UINT32_MAX, 1, 1), make(black, NULL), EXPECT_NUMBER(row(), 21);
}

/* ---- where a create puts its area, on hand-made records with quarters of 100 bytes. Of these only partition 0's starts at a multiple of
 * 16 of the medium: in the others the same places show that multiples count from the quarter's start. */
enum { PLACED_MEDIUM = 400, PLACED_QUARTER = PLACED_MEDIUM / 4, PLACED_VERSION = 1, NEW = 4711, NO_PLACE = -1 };

/* Areas by their first and last byte, in order of creation; B; and the start of the new area, or NO_PLACE where row 20 answers. */
static const struct placing {
    const char *areas;
    uint32_t b;
    int start;
} placings[] = {
    /* document 01's cases, as change 3 has them */
    {"10-29 40-99", 10, 0}, {"10-29 40-99", 11, NO_PLACE}, {"0-19 25-99", 5, NO_PLACE},
    /* no area, and one that takes all */
    {"", 100, 0}, {"", 101, NO_PLACE}, {"0-99", 1, NO_PLACE},
    /* a gap that starts on a multiple of 16, one byte after one, one byte before one: 8 bytes fit exactly, and 9 do not */
    {"0-15 24-99", 8, 16}, {"0-15 24-99", 9, NO_PLACE},
    {"0-16 40-99", 8, 32}, {"0-16 40-99", 9, NO_PLACE},
    {"0-14 24-99", 8, 16}, {"0-14 24-99", 9, NO_PLACE},
    /* a multiple of 8 is no place */
    {"0-7 16-99", 8, NO_PLACE}, {"0-7 24-99", 8, 16},
    /* a gap's first multiple is behind its end, its end, its last byte */
    {"0-16 31-99", 1, NO_PLACE}, {"0-16 32-99", 1, NO_PLACE}, {"0-16 33-99", 1, 32}, {"0-16 33-99", 2, NO_PLACE},
    /* the quarter's last gap */
    {"0-94", 4, 96}, {"0-94", 5, NO_PLACE}, {"0-95", 4, 96}, {"0-96", 1, NO_PLACE},
    /* the smaller gap has B bytes, but not from its first multiple, and is passed over */
    {"0-19 25-39 60-99", 5, 48}, {"0-19 25-39 60-99", 12, 48}, {"0-19 25-39 60-99", 13, NO_PLACE},
    {"0-28 40-63 80-99", 8, 32}, {"0-28 40-63 80-99", 9, 64}, {"0-28 40-63 80-99", 16, 64}, {"0-28 40-63 80-99", 17, NO_PLACE},
    /* of gaps that fit the smaller wins, although fewer bytes remain in the larger from its first multiple */
    {"0-15 36-49 74-99", 8, 16}, {"0-1 26-47 68-99", 8, 48},
    /* among equals the lowest start wins, whatever remains; where it does not fit, the other */
    {"20-39 60-99", 12, 0}, {"16-31 48-99", 16, 0}, {"0-1 22-31 52-99", 6, 16}, {"0-1 22-31 52-99", 7, 32},
    /* seven objects of one byte, and no eighth */
    {"0-0 16-16 32-32 48-48 64-64 80-80", 1, 96}, {"0-0 16-16 32-32 48-48 64-64 80-80 96-96", 1, NO_PLACE},
    /* areas in another order than their places, and side by side */
    {"52-99 22-31 0-1", 7, 32}, {"20-31 48-99 0-19", 16, 32},
    {"33-33 3-3 40-99 1-1", 1, 0}, {"33-33 3-3 40-99 1-1", 2, 16}, {"33-33 3-3 40-99 1-1", 17, 16}, {"33-33 3-3 40-99 1-1", 18, NO_PLACE},
};

/* A record whose partition has these areas, numbered from 1, and a medium without a zero. How many areas. */
static uint32_t hand_made(int partition, const char *areas)
{
    uint32_t *t = table_of(&drive, partition), first, last;
    int length;
    memset(buffer, FILL, sizeof buffer);
    empty_drive(&drive);
    drive.size = PLACED_MEDIUM;
    every_key();
    t[VERSION_AT] = t[LAST_AT] = PLACED_VERSION;
    for (; sscanf(areas, "%" SCNu32 "-%" SCNu32 "%n", &first, &last, &length) == 2; areas += length)
        add_object(t, t[COUNT_AT] + 1, PLACED_VERSION, last + 1 - first, first);
    return t[COUNT_AT];
}

/* The row of a request to that partition. */
static uint64_t placed_row(int partition, int operation, uint32_t object, uint32_t a, uint32_t b, const uint8_t *data)
{
    ask(operation, object, PLACED_VERSION, a, b);
    who.partition = (uint8_t)partition;
    make(key_at(&drive, key_place(SIEVELAST_SLOT_BLACK, partition)), data);
    struct lending l = lending();
    l.medium_len = PLACED_MEDIUM;
    return put(l).row;
}

/* Seen in the lent record's table, and by the bytes that are zeroed: these, and none beside them. */
static void placed(const struct placing *c, int partition)
{
    static uint8_t right[sizeof buffer];
    uint32_t n = hand_made(partition, c->areas), fits = c->start != NO_PLACE, start = fits ? (uint32_t)c->start : 0;
    const uint32_t *t = table_of(&drive, partition);
    snprintf(under_way, sizeof under_way, "areas %s and B = %" PRIu32 " in partition %d", c->areas, c->b, partition);
    memset(right, FILL, sizeof right);
    memset(right + BESIDE + partition * PLACED_QUARTER + start, 0, fits ? c->b : 0);
    EXPECT_NUMBER(placed_row(partition, SIEVELAST_CREATE, 0, NEW, c->b, NULL), fits ? 0 : 20);
    EXPECT_NUMBER(t[COUNT_AT], n + fits);
    EXPECT_NUMBER(t[NUMBERS_AT + n], fits ? NEW : 0);
    EXPECT_NUMBER(t[STARTS_AT + n], start);
    EXPECT_NUMBER(t[SIZES_AT + n], fits ? c->b : 0);
    EXPECT(!memcmp(buffer, right, sizeof buffer));
}

static void places(void)
{
    for (size_t i = 0; i < sizeof placings / sizeof *placings; i++)
        for (int partition = 0; partition < SIEVELAST_PARTITIONS; partition++)
            placed(&placings[i], partition);
    *under_way = 0;
}

/* Row 1 asks for no step: an object that starts anywhere is looked at, written, read and deleted, and another created beside it. */
static void any_start(void)
{
    static const uint8_t text[9] = "shape 471";
    static const struct { int operation; uint32_t object, a, b; } uses[] = {
        {SIEVELAST_LOOK, 1, 0, 0}, {SIEVELAST_WRITE, 1, 0, sizeof text}, {SIEVELAST_READ, 1, 0, sizeof text}, {SIEVELAST_LOOK, 0, 0, 0},
        {SIEVELAST_CREATE, 0, NEW, 1}, {SIEVELAST_DELETE, 1, 0, 0},
    };
    for (uint32_t start = 0; start + sizeof text <= PLACED_QUARTER; start++) {
        int partition = (int)start % SIEVELAST_PARTITIONS;
        snprintf(under_way, sizeof under_way, "%" PRIu32 "-%zu is an area of partition %d", start, start + sizeof text - 1, partition);
        EXPECT_NUMBER(hand_made(partition, under_way), 1);
        for (size_t i = 0; i < sizeof uses / sizeof *uses; i++)
            EXPECT_NUMBER(placed_row(partition, uses[i].operation, uses[i].object, uses[i].a, uses[i].b, text), 0);
        EXPECT(!memcmp(medium + partition * PLACED_QUARTER + start, text, sizeof text));
        EXPECT_NUMBER(table_of(&drive, partition)[COUNT_AT], 1);
    }
    *under_way = 0;
}

/* ---- row 12 and two heads under one holder number, each counting from zero: the nonce has the object */
enum { HEADS = 4711, OTHER = 5, THIRD = 9, LATER = CLOCK + SIEVELAST_TIME_WINDOW + 1 };

static const uint32_t looked_at[] = {OBJECT, OTHER, 0}; /* object 0 is the partition */
enum { LOOKS = sizeof looked_at / sizeof *looked_at };

/* A head's frame: an operation without bytes on an object, or a create of one more than there are. Its row. */
static uint64_t head_row(int operation, uint32_t object, uint64_t time, uint32_t count, uint64_t clock)
{
    int creates = operation == SIEVELAST_CREATE;
    ask(operation, object, object + 1, creates ? SIEVELAST_MOST_OBJECTS + 1 : 0, creates);
    who.expiry = UINT64_MAX;
    who.holder = HEADS;
    what.time = time;
    what.count = count;
    build(black, NULL);
    struct lending l = lending();
    l.clock = clock;
    return put(l).row;
}

/* A look at each, by count 0: all get this row. */
static void looks(uint64_t right, uint64_t time, uint64_t clock)
{
    for (int i = 0; i < LOOKS; i++)
        EXPECT_NUMBER(head_row(SIEVELAST_LOOK, looked_at[i], time, 0, clock), right);
}

static void two_heads(void)
{
    ready_with_objects();
    looks(0, CLOCK, CLOCK);
    looks(12, CLOCK, CLOCK);
    EXPECT_NUMBER(head_row(SIEVELAST_LOOK, OTHER, CLOCK, 1, CLOCK), 0);
    EXPECT_NUMBER(head_row(SIEVELAST_DELETE, OTHER, CLOCK, 1, CLOCK), 12); /* another operation on it */
    EXPECT_NUMBER(head_row(SIEVELAST_CREATE, 0, CLOCK, 1, CLOCK), 19);     /* refused, and not entered */
    EXPECT_NUMBER(head_row(SIEVELAST_DELETE, THIRD, CLOCK, 1, CLOCK), 0);
    EXPECT_NUMBER(head_row(SIEVELAST_CREATE, 0, CLOCK, 1, CLOCK), 0);
    EXPECT_NUMBER(head_row(SIEVELAST_LOOK, 0, CLOCK, 1, CLOCK), 12); /* a create is the partition's, whatever number it makes */
}

/* When the mark has outlived what stands before them, entries move to the front, each with its object. */
static void entries_moved(void)
{
    uint64_t time = CLOCK + SIEVELAST_TIME_WINDOW;
    ready_with_objects();
    EXPECT(drive.lengths[0] > LOOKS);
    looks(0, time, CLOCK);
    looks(12, time, LATER);
    EXPECT_NUMBER(drive.lengths[0], LOOKS);
    for (size_t i = 0; i < LOOKS; i++)
        EXPECT_NUMBER(entry_at(drive.entries, i)[ENTRY_OBJECT], looked_at[i]);
    EXPECT_NUMBER(head_row(SIEVELAST_LOOK, THIRD, time, 0, LATER), 0);
    EXPECT_NUMBER(head_row(SIEVELAST_LOOK, THIRD, time, 0, LATER), 12);
    looks(12, time, LATER);
}

/* Row 22 counts what differs in the object alone: four counts for each of sixteen objects fill a memory. */
static void memory_of_objects(void)
{
    ready_with_objects();
    for (uint32_t i = 0; i < SIEVELAST_MOST_ENTRIES; i++)
        EXPECT_NUMBER(head_row(SIEVELAST_LOOK, 1 + i % SIEVELAST_MOST_OBJECTS, LATER, i / SIEVELAST_MOST_OBJECTS, LATER), 0);
    EXPECT_NUMBER(drive.lengths[0], SIEVELAST_MOST_ENTRIES);
    EXPECT_NUMBER(head_row(SIEVELAST_LOOK, 0, LATER, 0, LATER), 22);
    EXPECT_NUMBER(head_row(SIEVELAST_LOOK, OTHER, LATER, 0, LATER), 12);
}

/* ---- a mill's own operation table: all keys are set, and every partition has the same object */
enum { MINE, NEIGHBOUR, OPERATIONS = SIEVELAST_TABLE_OPERATIONS, LINE = SIEVELAST_TABLE_BYTES / OPERATIONS, PIECE = 9 };

/* Tables as operation 8 loads them: for each operation two bytes of mask and one of level. */
typedef uint8_t operation_table[SIEVELAST_TABLE_BYTES];
static const operation_table by_rule = {0, 0x01, 0, 0, 0x02, 0, 0, 0x04, 0, 0, 0x08, 0, 0, 0x10, 0, 0, 0x20, 0, 0, 0x40, 1};
/* "One mill wants reads to need the look right too, .. */
static const operation_table reads_look = {0, 0x05, 0, 0, 0x02, 0, 0, 0x04, 0, 0, 0x08, 0, 0, 0x10, 0, 0, 0x20, 0, 0, 0x40, 1};
/* .. another every write at level 2." */
static const operation_table writes_sealed = {0, 0x01, 0, 0, 0x02, 2, 0, 0x04, 0, 0, 0x08, 0, 0, 0x10, 0, 0, 0x20, 0, 0, 0x40, 1};
/* No line is another's, nor document 01's. */
static const operation_table odd = {0, 0x7f, 2, 0, 0x03, 1, 0, 0x0c, 2, 0, 0x01, 0, 0, 0x41, 1, 0, 0x60, 2, 0, 0x11, 2};

static uint32_t mask_in(const operation_table t, int op) { return (uint32_t)t[LINE * (op - 1)] << 8 | t[LINE * (op - 1) + 1]; }
static uint32_t level_in(const operation_table t, int op) { return t[LINE * (op - 1) + 2]; }

/* Whether a partition's operation table is this one. */
static int has_table(int partition, const operation_table right)
{
    const uint32_t *t = table_of(&drive, partition);
    int same = 1;
    for (int op = 1; op <= OPERATIONS; op++)
        same = same && t[MASKS_AT + op - 1] == mask_in(right, op) && t[LEVELS_AT + op - 1] == level_in(right, op);
    return same;
}

static void ready_mills(void)
{
    ready(1);
    every_key();
    for (int p = NEIGHBOUR; p < SIEVELAST_PARTITIONS; p++)
        memcpy(table_of(&drive, p), table_of(&drive, MINE), TABLE_NUMBERS * sizeof *drive.tables);
}

/* A request for an operation under a slot, which no row but 7 and 13 refuses on such a drive. */
static void ask_under(int partition, int slot, int operation)
{
    static const uint32_t fields[][5] = {
        /* object, version, A, B, data length */
        [SIEVELAST_READ] = {OBJECT, 2, 3, PIECE, 0},
        [SIEVELAST_WRITE] = {OBJECT, 2, 3, PIECE, PIECE},
        [SIEVELAST_LOOK] = {OBJECT, 2, 0, 0, 0},
        [SIEVELAST_RAISE] = {OBJECT, 2, 0, 0, 0},
        [SIEVELAST_CREATE] = {0, 1, 5, 6, 0},
        [SIEVELAST_DELETE] = {OBJECT, 2, 0, 0, 0},
        [SIEVELAST_SET_KEY] = {0, 0, 0, 0, SIEVELAST_SEED_BYTES},
        [SIEVELAST_LOAD_TABLE] = {0, 0, 0, 0, SIEVELAST_TABLE_BYTES},
    };
    const uint32_t *f = fields[operation];
    ask(operation, f[0], f[1], f[2], f[3]);
    who.partition = (uint8_t)partition;
    who.slot = (uint8_t)slot;
    what.data_len = f[4];
}

/* Puts it, signed by the record's own keys and without the builder, which would not write every one; its row. */
static uint64_t row_signed(const uint8_t *data)
{
    struct draft f = {.grouped = grouped, .member = member};
    what.count = next_count++;
    f.who = who, f.what = what;
    f.length = draft_length(&f);
    draft_records(&f);
    memcpy(f.frame + draft_records_length(&f), data, what.data_len);
    draft_sign(&f, &drive);
    struct lending l = {f.frame, f.length, REPLY, drive.size, CLOCK, 0, 0};
    return put(l).row;
}

static void raise_partition(void)
{
    ask_under(MINE, SIEVELAST_SLOT_BLACK, SIEVELAST_RAISE);
    who.object = 0, who.version = table_of(&drive, MINE)[VERSION_AT];
    EXPECT_NUMBER(row_signed(seed), 0);
}

/* The row with these rights and this level; what the call changes is put back. */
static uint64_t row_under(int partition, int slot, int operation, uint32_t rights, uint32_t level)
{
    struct sievelast_drive kept = drive;
    uint8_t kept_bytes[sizeof buffer];
    memcpy(kept_bytes, buffer, sizeof buffer);
    snprintf(under_way, sizeof under_way, "operation %d under slot %d of partition %d, rights %#" PRIx32 ", level %" PRIu32, operation,
             slot, partition, rights, level);
    ask_under(partition, slot, operation);
    who.rights = (uint16_t)rights;
    what.level = (uint8_t)level;
    uint64_t r = row_signed(operation == SIEVELAST_LOAD_TABLE ? odd : by_rule);
    *under_way = 0;
    drive = kept;
    memcpy(buffer, kept_bytes, sizeof buffer);
    return r;
}

/* An operation needs these rights and this level, each of them, and no more. */
static void needs(int partition, int slot, int operation, uint32_t mask, uint32_t level)
{
    EXPECT_NUMBER(row_under(partition, slot, operation, mask, level), 0);
    for (uint32_t bit = 1; bit <= SIEVELAST_EVERY_RIGHT; bit <<= 1)
        EXPECT_NUMBER(row_under(partition, slot, operation, SIEVELAST_EVERY_RIGHT & ~bit, SIEVELAST_LEVEL_REPLY), mask & bit ? 13 : 0);
    for (uint32_t under = 0; under < level; under++)
        EXPECT_NUMBER(row_under(partition, slot, operation, 0, under), 7);
}

/* Operations 1 to 7 need what the table has; under slots 3 and 4, and to load a table, document 01's rule holds. */
static void needs_by(int partition, const operation_table table)
{
    EXPECT(has_table(partition, table));
    for (int op = 1; op <= OPERATIONS; op++) {
        int sets = op == SIEVELAST_SET_KEY, last = sets ? SIEVELAST_SLOT_PARTITION : SIEVELAST_SLOT_GOLD;
        for (int slot = sets ? last : SIEVELAST_SLOT_BLACK; slot <= last; slot++)
            needs(partition, slot, op, mask_in(table, op), level_in(table, op));
    }
    needs(partition, SIEVELAST_SLOT_PARTITION, SIEVELAST_LOAD_TABLE, 0x40, 1);
    needs(0, SIEVELAST_SLOT_DRIVE, SIEVELAST_SET_KEY, 0x40, 1);
    needs(0, SIEVELAST_SLOT_MASTER, SIEVELAST_SET_KEY, 0x40, 1);
}

/* Operation 8 through issuer and builder. */
static void make_load(int partition, const operation_table table)
{
    ask_under(partition, SIEVELAST_SLOT_PARTITION, SIEVELAST_LOAD_TABLE);
    make(key_at(&drive, key_place(SIEVELAST_SLOT_PARTITION, partition)), table);
}

static uint64_t load(int partition, const operation_table table)
{
    make_load(partition, table);
    return row();
}

static void two_mills(void)
{
    ready_mills();
    for (int p = 0; p < SIEVELAST_PARTITIONS; p++)
        needs_by(p, by_rule);
    EXPECT_NUMBER(load(MINE, reads_look), 0);
    EXPECT_NUMBER(row_under(MINE, SIEVELAST_SLOT_BLACK, SIEVELAST_READ, 1, 0), 13);
    EXPECT_NUMBER(row_under(MINE, SIEVELAST_SLOT_BLACK, SIEVELAST_READ, 5, 0), 0);
    EXPECT_NUMBER(row_under(NEIGHBOUR, SIEVELAST_SLOT_BLACK, SIEVELAST_READ, 1, 0), 0);
    needs_by(MINE, reads_look);
    EXPECT_NUMBER(load(MINE, writes_sealed), 0);
    EXPECT_NUMBER(row_under(MINE, SIEVELAST_SLOT_BLACK, SIEVELAST_WRITE, 2, 1), 7);
    EXPECT_NUMBER(row_under(MINE, SIEVELAST_SLOT_BLACK, SIEVELAST_WRITE, 2, 2), 0);
    EXPECT_NUMBER(row_under(NEIGHBOUR, SIEVELAST_SLOT_BLACK, SIEVELAST_WRITE, 2, 0), 0);
    needs_by(MINE, writes_sealed);
    needs_by(NEIGHBOUR, by_rule);
    ask_under(MINE, SIEVELAST_SLOT_BLACK, SIEVELAST_WRITE), who.least = SIEVELAST_LEVEL_REPLY, what.level = SIEVELAST_LEVEL_DATA;
    EXPECT_NUMBER(row_signed(by_rule), 7);
    ask_under(MINE, SIEVELAST_SLOT_BLACK, SIEVELAST_READ), who.least = SIEVELAST_LEVEL_REPLY, what.level = SIEVELAST_LEVEL_DATA;
    EXPECT_NUMBER(row_signed(by_rule), 7); /* the credential's own least, where the table asks for less */
}

/* A table that says otherwise of every operation, in each partition in turn, and then the first one again. */
static void odd_table(void)
{
    ready_mills();
    for (int p = 0; p < SIEVELAST_PARTITIONS; p++) {
        EXPECT_NUMBER(load(p, odd), 0);
        needs_by(p, odd);
        needs_by((p + 1) % SIEVELAST_PARTITIONS, by_rule);
        EXPECT_NUMBER(load(p, by_rule), 0);
        needs_by(p, by_rule);
    }
}

/* ---- good tables and others: one line of a table changed. A table that is not good leaves every byte of the record. */
static void loads(uint64_t right, int operation, uint32_t mask, uint32_t level)
{
    operation_table table;
    struct sievelast_drive before = drive;
    memcpy(table, odd, sizeof table);
    table[LINE * (operation - 1)] = (uint8_t)(mask >> 8);
    table[LINE * (operation - 1) + 1] = (uint8_t)mask;
    table[LINE * (operation - 1) + 2] = (uint8_t)level;
    snprintf(under_way, sizeof under_way, "operation %d: mask %#" PRIx32 ", level %" PRIu32, operation, mask, level);
    EXPECT_NUMBER(load(MINE, table), right);
    EXPECT(right ? !memcmp(&drive, &before, sizeof drive) : has_table(MINE, table));
    *under_way = 0;
    drive = before;
}

static void good_and_bad(void)
{
    static const uint32_t bad_masks[] = {0, 0x80, 0x81, 0xff, 0x100, 0x101, 0x8000, 0xffff}, bad_levels[] = {3, 4, 0x80, 0xff};
    ready_mills();
    for (int op = 1; op <= OPERATIONS; op++) {
        for (uint32_t mask = 1; mask <= SIEVELAST_EVERY_RIGHT; mask++)
            loads(0, op, mask, SIEVELAST_LEVEL_DATA);
        for (size_t i = 0; i < sizeof bad_masks / sizeof *bad_masks; i++)
            loads(31, op, bad_masks[i], SIEVELAST_LEVEL_DATA);
        loads(op == SIEVELAST_SET_KEY ? 31 : 0, op, 1, SIEVELAST_LEVEL_RECORDS);
        loads(0, op, 1, SIEVELAST_LEVEL_REPLY);
        for (size_t i = 0; i < sizeof bad_levels / sizeof *bad_levels; i++)
            loads(31, op, 1, bad_levels[i]);
    }
}

/* ---- the rows of operation 8 from 5 on, by bytes of a frame that is granted otherwise */
/* The row of the frame at hand with two bytes changed, as long as its parts. */
static uint64_t row_of_load(size_t at, uint8_t value, uint8_t level)
{
    uint8_t kept = frame[at], kept_level = frame[39];
    snprintf(under_way, sizeof under_way, "byte %zu is %d, the level %d", at, value, level);
    frame[39] = level;
    frame[at] = value;
    struct lending l = lending();
    l.frame_len = SIEVELAST_LEAST_FRAME_BYTES + frame[63];
    uint64_t r = put(l).row;
    frame[39] = kept_level;
    frame[at] = kept;
    *under_way = 0;
    return r;
}

static void rows_of_the_load(void)
{
    static const struct { uint64_t row; uint8_t at, value; } cases[] = {
        {5, 63, 20}, {5, 63, 22}, {5, 63, 0}, {5, 63, 16}, /* the data's length */
        {6, 3, SIEVELAST_SLOT_BLACK}, {6, 3, SIEVELAST_SLOT_GOLD}, {6, 3, SIEVELAST_SLOT_DRIVE}, {6, 3, SIEVELAST_SLOT_MASTER},
        {6, 4, 1}, {6, 7, 1}, {6, 8, 1}, {6, 11, 1}, {6, 52, 1}, {6, 55, 1}, {6, 56, 1}, {6, 59, 1}, /* object, version, A, B */
        {9, 64, 1}, {9, 84, 1}, /* the table is signed */
    };
    ready_mills();
    make_load(MINE, odd);
    for (size_t i = 0; i < sizeof cases / sizeof *cases; i++) {
        EXPECT_NUMBER(row_of_load(cases[i].at, cases[i].value, SIEVELAST_LEVEL_REPLY), cases[i].row);
        EXPECT_NUMBER(row_of_load(cases[i].at, cases[i].value, SIEVELAST_LEVEL_RECORDS), cases[i].row < 7 ? cases[i].row : 7);
    }
    EXPECT_NUMBER(row_of_load(14, SIEVELAST_LEVEL_REPLY, SIEVELAST_LEVEL_DATA), 7); /* the credential's least level */
    EXPECT_NUMBER(row_of_load(14, SIEVELAST_LEVEL_DATA, SIEVELAST_LEVEL_DATA), 9);
    struct lending l = lending();
    l.frame_len--, EXPECT_NUMBER(put(l).row, 5);
    EXPECT_NUMBER(row(), 0);
    EXPECT_NUMBER(row(), 12);
    EXPECT_NUMBER(row_under(MINE, SIEVELAST_SLOT_PARTITION, SIEVELAST_LOAD_TABLE, 0x3f, SIEVELAST_LEVEL_DATA), 13);
    raise_partition();
    EXPECT_NUMBER(load(MINE, odd), 0); /* bound to no version */
}

/* ---- which row comes first */
static void order_of_the_load(void)
{
    operation_table bad;
    memcpy(bad, odd, sizeof bad), bad[0] = 1;
    ready_mills();
    drive.keys[FLAGS_AT + key_place(SIEVELAST_SLOT_GOLD, MINE)] = 0;
    drive.keys[FLAGS_AT + key_place(SIEVELAST_SLOT_PARTITION, NEIGHBOUR)] = 0;
    EXPECT_NUMBER(load(MINE, odd), 0);
    EXPECT_NUMBER(row_under(MINE, SIEVELAST_SLOT_GOLD, SIEVELAST_READ, SIEVELAST_EVERY_RIGHT, 1), 7); /* a key that nobody set */
    EXPECT_NUMBER(row_under(MINE, SIEVELAST_SLOT_GOLD, SIEVELAST_READ, 0, 2), 8);
    EXPECT_NUMBER(row_under(NEIGHBOUR, SIEVELAST_SLOT_PARTITION, SIEVELAST_LOAD_TABLE, 0, 0), 7);
    EXPECT_NUMBER(row_under(NEIGHBOUR, SIEVELAST_SLOT_PARTITION, SIEVELAST_LOAD_TABLE, 0, 1), 8);
    ask_under(MINE, SIEVELAST_SLOT_PARTITION, SIEVELAST_LOAD_TABLE), who.rights = 0x3f, EXPECT_NUMBER(row_signed(bad), 13);
    make_load(MINE, bad);
    struct lending l = lending();
    l.reply_len = 0, EXPECT_NUMBER(put(l).row, 31);
    while (drive.lengths[MINE] < SIEVELAST_MOST_ENTRIES && !failures)
        EXPECT_NUMBER(load(MINE, odd), 0);
    EXPECT_NUMBER(load(MINE, bad), 31);
    EXPECT_NUMBER(load(MINE, odd), 22);
    /* refused, of the record the mark moves and what it outlived goes, and no more */
    uint32_t before[SIEVELAST_RECORD_TABLES];
    memcpy(before, drive.tables, sizeof before);
    ask_under(MINE, SIEVELAST_SLOT_PARTITION, SIEVELAST_LOAD_TABLE), who.expiry = LATER, what.time = LATER;
    make(key_at(&drive, key_place(SIEVELAST_SLOT_PARTITION, MINE)), bad);
    l = lending(), l.clock = LATER, EXPECT_NUMBER(put(l).row, 31);
    EXPECT(drive.highwater == LATER && drive.lengths[MINE] == 0 && !memcmp(before, drive.tables, sizeof before));
}

/* The reply of a load: its head, at level 2 a digest, and no result. */
static void reply_of_the_load(void)
{
    for (int level = SIEVELAST_LEVEL_DATA; level <= SIEVELAST_LEVEL_REPLY; level++) {
        size_t length = SIEVELAST_REPLY_HEAD_BYTES + (level == SIEVELAST_LEVEL_REPLY ? SIEVELAST_DIGEST_BYTES : 0);
        ready_mills();
        ask_under(MINE, SIEVELAST_SLOT_PARTITION, SIEVELAST_LOAD_TABLE), what.level = (uint8_t)level;
        make(key_at(&drive, key_place(SIEVELAST_SLOT_PARTITION, MINE)), odd);
        struct lending l = lending();
        l.reply_len = length - 1, EXPECT_NUMBER(put(l).row, 23);
        l.reply_len = length;
        struct sievelast_answered a = put(l);
        EXPECT_NUMBER(a.row, 0);
        EXPECT_NUMBER(a.length, length);
    }
}

/* Every other operation leaves every partition's table, a delete that moves fourteen objects too; and so do refused ones. */
static void table_stays(void)
{
    static const uint8_t slots[] = {0, 0, 1, 0, 1, 0, 1, 2};
    ready_mills();
    for (uint32_t i = 0; i < SIEVELAST_MOST_OBJECTS - 2; i++)
        add_object(table_of(&drive, MINE), NEW + i, 1, 1, NEXT + STEP * i);
    EXPECT_NUMBER(load(MINE, odd), 0);
    struct sievelast_drive loaded = drive;
    for (int op = 1; op <= OPERATIONS; op++)
        for (int slot = slots[op]; slot <= (op == SIEVELAST_SET_KEY ? SIEVELAST_SLOT_MASTER : slots[op]); slot++) {
            drive = loaded;
            ask_under(MINE, slot, op), EXPECT_NUMBER(row_signed(seed), 0);
            EXPECT(has_table(MINE, odd) && has_table(NEIGHBOUR, by_rule));
            ask_under(MINE, slot, op), who.rights = 0, EXPECT_NUMBER(row_signed(seed), 13);
            EXPECT(has_table(MINE, odd) && has_table(NEIGHBOUR, by_rule));
        }
    raise_partition();
    EXPECT(has_table(MINE, odd) && has_table(NEIGHBOUR, by_rule));
}

/* ---- a record with lines that no load makes: row 1 asks for none, and every bit of them counts */
static void any_line(void)
{
    static const struct { struct need line; uint64_t bare, full; } lines[] = { /* rows without a right at level 0, with all at level 2 */
        {{0, 0}, 0, 0}, {{0, 2}, 7, 0}, {{0, 3}, 7, 7}, {{0, 0x100}, 7, 7}, {{0, 0x10000}, 7, 7}, {{0, UINT32_MAX}, 7, 7},
        {{0x7f, 0}, 13, 0}, {{0x80, 0}, 13, 13}, {{0xff, 0}, 13, 13}, {{0x100, 0}, 13, 13}, {{0x10000, 0}, 13, 13},
        {{(uint32_t)1 << 31, 0}, 13, 13}, {{UINT32_MAX, 0}, 13, 13}, {{UINT32_MAX, UINT32_MAX}, 7, 7},
    };
    ready_mills();
    for (int op = 1; op <= OPERATIONS; op++)
        for (size_t i = 0; i < sizeof lines / sizeof *lines; i++) {
            int slot = op == SIEVELAST_SET_KEY ? SIEVELAST_SLOT_PARTITION : SIEVELAST_SLOT_BLACK, p = (op + (int)i) % SIEVELAST_PARTITIONS;
            struct need kept = need_at(table_of(&drive, p), op);
            put_need(table_of(&drive, p), op, lines[i].line);
            EXPECT_NUMBER(row_under(p, slot, op, 0, 0), lines[i].bare);
            EXPECT_NUMBER(row_under(p, slot, op, SIEVELAST_EVERY_RIGHT, SIEVELAST_LEVEL_REPLY), lines[i].full);
            needs(p, SIEVELAST_SLOT_PARTITION, SIEVELAST_LOAD_TABLE, 0x40, 1);
            put_need(table_of(&drive, p), op, kept);
        }
}

/* The drive of a refused format: its tables are document 01's rule, too, and no key signs anything. */
static void has_nothing(void)
{
    for (int p = 0; p < SIEVELAST_PARTITIONS; p++) {
        EXPECT(has_table(p, by_rule));
        EXPECT_NUMBER(row_under(p, SIEVELAST_SLOT_BLACK, SIEVELAST_LOOK, SIEVELAST_EVERY_RIGHT, 0), 8);
        EXPECT_NUMBER(row_under(p, SIEVELAST_SLOT_PARTITION, SIEVELAST_SET_KEY, SIEVELAST_EVERY_RIGHT, 0), 7);
        EXPECT_NUMBER(row_under(p, SIEVELAST_SLOT_PARTITION, SIEVELAST_SET_KEY, SIEVELAST_EVERY_RIGHT, 1), 8);
    }
}

#include "store_groups.h"

/* ---- row 23: a reply space too short by one, exact and longer, for each operation and level; the rest of the reply is checked */
static void reply_spaces(int level)
{
    static const uint32_t args[][4] = {{0, 0, 0, 0},      {OBJECT, 2, 3, 9}, {OBJECT, 2, 3, 9}, {OBJECT, 2, 0, 0},
                                       {OBJECT, 2, 0, 0}, {0, 1, 5, 6},      {OBJECT, 3, 0, 0}};
    static const size_t results[] = {0, 9, 0, SIEVELAST_LOOK_BYTES, SIEVELAST_NEW_VERSION_BYTES, SIEVELAST_NEW_VERSION_BYTES, 0};
    ready(1);
    for (int op = SIEVELAST_READ; op <= SIEVELAST_DELETE; op++) {
        size_t length = SIEVELAST_REPLY_HEAD_BYTES + results[op] + (level == SIEVELAST_LEVEL_REPLY ? SIEVELAST_DIGEST_BYTES : 0);
        snprintf(under_way, sizeof under_way, "operation %d at level %d", op, level);
        ask(op, args[op][0], args[op][1], args[op][2], args[op][3]);
        what.level = (uint8_t)level;
        make(black, (const uint8_t *)"new bytes");
        struct lending l = lending();
        l.reply_len = length - 1, EXPECT_NUMBER(put(l).row, 23);
        l.reply_len = 0, EXPECT_NUMBER(put(l).row, 23);
        l.reply_len = length + (op % 2 ? 0 : 3);
        struct sievelast_answered a = put(l);
        EXPECT_NUMBER(a.row, 0);
        EXPECT_NUMBER(a.length, length);
        EXPECT_NUMBER(put(l).row, 12);
    }
    *under_way = 0;
}

/* ---- medium, frame and reply at every offset from the machine's alignment: a write and a read, the medium moving in its buffer */
static void alignments(void)
{
    uint8_t text[9] = "123456789";
    static uint8_t space[8 + MEDIUM];
    ready(1);
    struct sievelast_drive ready_drive = drive;
    for (size_t off = 0; off < 512; off++) {
        uint8_t *m = space + off % 8, frame_space[8 + sizeof frame], reply_space[8 + 64];
        drive = ready_drive;
        memcpy(m, medium, MEDIUM);
        for (int op = SIEVELAST_WRITE; op >= SIEVELAST_READ; op--) {
            uint8_t *f = frame_space + off / 8 % 8, *reply = reply_space + off / 64;
            ask(op, OBJECT, 2, 3, sizeof text), what.level = SIEVELAST_LEVEL_DATA, make(black, text);
            memcpy(f, frame, frame_len);
            struct sievelast_answered a = sievelast_gate(&drive, m, MEDIUM, f, frame_len, CLOCK, reply, 64);
            EXPECT_NUMBER(a.row, 0);
            EXPECT_NUMBER(a.length, SIEVELAST_REPLY_HEAD_BYTES + (op == SIEVELAST_READ ? sizeof text : 0));
            EXPECT(op != SIEVELAST_READ || !memcmp(reply + SIEVELAST_REPLY_HEAD_BYTES, text, sizeof text));
        }
    }
}

/* ---- format refused: the record is overwritten, the medium is not */
static void formats(int largest)
{
    enum { KEY = SIEVELAST_KEY_BYTES };
    ready(1);
    EXPECT_NUMBER(format(MEDIUM, 0, KEY, KEY), 25);
    EXPECT_NUMBER(row(), 1);
    has_nothing();
    ready(1);
    EXPECT_NUMBER(format(MEDIUM, 1, KEY - 1, KEY), 26);
    has_nothing();
    ready(1);
    EXPECT_NUMBER(format(MEDIUM, 1, KEY, 0), 26);
    has_nothing();
    EXPECT_NUMBER(format(MEDIUM, 0, 0, 0), 25);
    EXPECT_NUMBER(sievelast_format(&drive, NULL, 0, 1, NULL, 0, NULL, 0), 26);
    EXPECT_NUMBER(sievelast_format(&drive, NULL, 0, 1, master, KEY, drive_key, KEY), 0);
    EXPECT_NUMBER(sievelast_gate(&drive, NULL, 0, NULL, 0, CLOCK, NULL, 0).row, 2);
    if (!largest)
        return;
    struct lent large = filled(SIEVELAST_MOST_MEDIUM_BYTES + 1, 0, NULL);
    size_t kept = 0, zeros = 0;
    EXPECT_NUMBER(answered(sievelast_format(&drive, large.bytes, large.length, 0, NULL, 0, NULL, 0), 0).row, 24);
    EXPECT_NUMBER(drive.size, 0);
    has_nothing();
    while (kept < large.length && large.bytes[kept] == FILL)
        kept++;
    EXPECT_NUMBER(kept, large.length);
    EXPECT_NUMBER(sievelast_format(&drive, large.bytes, large.length - 1, 1, master, KEY, drive_key, KEY), 0);
    while (zeros < large.length && large.bytes[zeros] == 0)
        zeros++;
    EXPECT_NUMBER(zeros, large.length - 1);
    give_back(&large);
}

/* ---- issuer: rows 26, 28 and 29, and the space */
static void issue_refused(uint64_t right, struct sievelast_credential c, size_t key_len, size_t space_len)
{
    static const uint8_t zeros[SIEVELAST_KEY_BYTES];
    struct lent space = filled(space_len, 1, NULL), kept = filled(space_len, 0, NULL);
    struct sievelast_issued i = sievelast_issue(c, master, key_len, space.bytes, space.length);
    EXPECT_NUMBER(answered(i.row, 0).row, right);
    EXPECT(same_bytes(&space, &kept));
    EXPECT(!memcmp(i.key, zeros, sizeof zeros));
    give_back(&space), give_back(&kept);
}

static void issue_granted(struct sievelast_credential good)
{
    struct lent space = filled(SIEVELAST_CREDENTIAL_BYTES + 5, 3, NULL);
    uint8_t bytes[SIEVELAST_CREDENTIAL_BYTES], key[SIEVELAST_KEY_BYTES];
    struct sievelast_issued i = sievelast_issue(good, master, SIEVELAST_KEY_BYTES, space.bytes, space.length);
    sievelast_credential_encode(good, bytes, sizeof bytes);
    test_hmac(master, SIEVELAST_KEY_BYTES, bytes, sizeof bytes, key);
    EXPECT_NUMBER(i.row, 0);
    EXPECT(!memcmp(space.bytes, bytes, sizeof bytes));
    EXPECT(!memcmp(i.key, key, sizeof key));
    for (size_t at = sizeof bytes; at < space.length; at++)
        EXPECT_NUMBER(space.bytes[at], FILL);
    give_back(&space);
}

static void issuer(void)
{
    struct sievelast_credential good = {9, 8, 7, 6, 5, 4, SIEVELAST_EVERY_RIGHT, 3, SIEVELAST_SLOT_GOLD, SIEVELAST_LEVEL_REPLY}, bad, group;
    issue_granted(good);
    for (uint32_t rights = 0; rights <= 0xff; rights++) /* a group's too, whatever its object and slot: row 28 cites rows 3 and 4 */
        for (uint32_t object = 0; object <= 1; object++)
            group = good, group.rights = (uint16_t)rights, group.object = object, group.slot = (uint8_t)(rights % 3), issue_granted(group);
    issue_refused(26, good, SIEVELAST_KEY_BYTES - 1, SIEVELAST_CREDENTIAL_BYTES);
    issue_refused(26, good, 0, 0);
    bad = good, bad.partition = 4, issue_refused(28, bad, SIEVELAST_KEY_BYTES, SIEVELAST_CREDENTIAL_BYTES);
    bad = good, bad.slot = 5, issue_refused(28, bad, SIEVELAST_KEY_BYTES, SIEVELAST_CREDENTIAL_BYTES);
    bad = good, bad.slot = SIEVELAST_SLOT_MASTER, issue_refused(28, bad, SIEVELAST_KEY_BYTES, SIEVELAST_CREDENTIAL_BYTES);
    bad = good, bad.rights = 0x100, issue_refused(28, bad, SIEVELAST_KEY_BYTES, SIEVELAST_CREDENTIAL_BYTES);
    bad = good, bad.rights = 0x8080, issue_refused(28, bad, SIEVELAST_KEY_BYTES, SIEVELAST_CREDENTIAL_BYTES);
    bad = good, bad.least = 3, issue_refused(28, bad, SIEVELAST_KEY_BYTES, 0);
    issue_refused(29, good, SIEVELAST_KEY_BYTES, SIEVELAST_CREDENTIAL_BYTES - 1);
    issue_refused(29, good, SIEVELAST_KEY_BYTES, 0);
}

/* ---- HMAC: RFC 4231's vectors (of case 5 it gives 16 bytes), the reference at every length up to some blocks, row 27 */
static void vectors(void)
{
    static const struct { size_t key_len, data_len; int key_step; uint8_t key, data; const char *key_text, *text, *digest; } cases[] = {
        {20, 0, 0, 0x0b, 0, NULL, "Hi There", "b0344c61d8db38535ca8afceaf0bf12b881dc200c9833da726e9376c2e32cff7"},
        {4, 0, 0, 0, 0, "Jefe", "what do ya want for nothing?", "5bdcc146bf60754e6a042426089575c75a003f089d2739839dec58b964ec3843"},
        {20, 50, 0, 0xaa, 0xdd, NULL, NULL, "773ea91e36800e46854db8ebd09181a72959098b3ef8c122d9635514ced565fe"},
        {25, 50, 1, 1, 0xcd, NULL, NULL, "82558a389a443c0ea4cc819899f2083a85f0faa3e578f8077a2e3ff46729665b"},
        {20, 0, 0, 0x0c, 0, NULL, "Test With Truncation", "a3b6167473100ee06e0c796c2955552b"},
        {131, 0, 0, 0xaa, 0, NULL, "Test Using Larger Than Block-Size Key - Hash Key First",
         "60e431591ee0b67f0d8a26aacbf5b77f8e0bc6213728c5140546040f0ee37f54"},
        {131, 0, 0, 0xaa, 0, NULL,
         "This is a test using a larger than block-size key and a larger than block-size data. The key needs to be hashed before being "
         "used by the HMAC algorithm.",
         "9b09ffa71b942fcb27635fbcd5b0e944bfdc63644f0713938a7f51535c3a35e2"},
    };
    for (size_t i = 0; i < sizeof cases / sizeof *cases; i++) {
        uint8_t key[131], data[200];
        char hex[2 * SIEVELAST_DIGEST_BYTES + 1];
        size_t n = cases[i].text ? strlen(cases[i].text) : cases[i].data_len;
        for (size_t k = 0; k < cases[i].key_len; k++)
            key[k] = cases[i].key_text ? (uint8_t)cases[i].key_text[k] : (uint8_t)(cases[i].key + k * (size_t)cases[i].key_step);
        for (size_t k = 0; k < n; k++)
            data[k] = cases[i].text ? (uint8_t)cases[i].text[k] : cases[i].data;
        struct sievelast_digest h = sievelast_hmac(key, cases[i].key_len, data, n);
        for (int k = 0; k < SIEVELAST_DIGEST_BYTES; k++)
            snprintf(hex + 2 * k, 3, "%02x", h.bytes[k]);
        EXPECT_NUMBER(h.row, 0);
        EXPECT(!strncmp(hex, cases[i].digest, strlen(cases[i].digest)));
    }
}

static void hmac_as_reference(size_t key_len, size_t message_len, size_t offset)
{
    struct lent key = filled(key_len, offset % 8, NULL), message = filled(message_len, offset / 8 % 8, NULL);
    uint8_t right[SIEVELAST_DIGEST_BYTES];
    for (size_t i = 0; i < key_len; i++)
        key.bytes[i] = (uint8_t)(i * 5 + message_len);
    struct sievelast_digest h = sievelast_hmac(key.bytes, key.length, message.bytes, message.length);
    test_hmac(key.bytes, key.length, message.bytes, message.length, right);
    EXPECT_NUMBER(h.row, 0);
    EXPECT(!memcmp(h.bytes, right, sizeof right));
    give_back(&key), give_back(&message);
}

static void hmacs(int largest)
{
    static const uint8_t zeros[SIEVELAST_DIGEST_BYTES];
    vectors();
    for (size_t n = 0; n < 300; n++)
        hmac_as_reference(n * 7 % 150, n, n);
    if (!largest)
        return;
    hmac_as_reference(SIEVELAST_KEY_BYTES, SIEVELAST_MOST_MEDIUM_BYTES, 3);
    struct lent large = filled(SIEVELAST_MOST_MEDIUM_BYTES + 1, 0, NULL);
    struct sievelast_digest one = sievelast_hmac(large.bytes, large.length, NULL, 0);
    struct sievelast_digest other = sievelast_hmac(NULL, 0, large.bytes, large.length);
    EXPECT_NUMBER(answered(one.row, 0).row, 27);
    EXPECT_NUMBER(answered(other.row, 0).row, 27);
    EXPECT(!memcmp(one.bytes, zeros, sizeof zeros) && !memcmp(other.bytes, zeros, sizeof zeros));
    give_back(&large);
}

/* ---- a record spoiled in every part */
static struct tally {
    unsigned long unsound, judged, granted;
} tallies[RECORD_PARTS];
static unsigned long grouped_grants;

static void spoil_one(size_t part, size_t i, uint32_t way, struct choices *s)
{
    uint64_t x = spoil_number(&drive, &record_parts[part], i, way, s);
    snprintf(under_way, sizeof under_way, "%s[%zu] is %" PRIu64, record_parts[part].name, i, x);
}

/* Puts a frame to the spoiled record, with the medium that its size names where there is so much, and counts. */
static void put_spoiled(struct tally *t, const uint8_t *bytes, size_t length, uint64_t clock, size_t space)
{
    struct lending l = {bytes, length, space, drive.size <= MEDIUM ? drive.size : MEDIUM, clock, 0, 0};
    int sound = paper_sound(&drive);
    uint64_t r = put(l).row;
    EXPECT(sound ? drive.size > MEDIUM || r != 1 : r == 1);
    t->unsound += !sound;
    t->judged += sound;
    t->granted += r == 0;
}

/* A drafted frame, signed by the spoiled record's own keys; or one of random bytes. */
static void put_draft(struct tally *t, struct choices *s)
{
    struct draft f;
    draft_call(&f, &drive, drive.size <= MEDIUM ? medium : NULL, s);
    if (choose(s, 8) == 0)
        for (size_t i = 0; i < sizeof f.frame; i++)
            f.frame[i] = choose_byte(s);
    unsigned long granted = answers[SIEVELAST_GRANTED];
    put_spoiled(t, f.frame, f.length, f.clock, draft_space(&f, s));
    grouped_grants += answers[SIEVELAST_GRANTED] > granted && paper_call_of(f.frame).grouped;
}

/* Each number of each part, in every way, before a read that would be granted, and before a draft; of the long parts only every so
 * many. */
static void spoil_each(size_t step)
{
    struct choices s = {NULL, 0, 77};
    ready(1);
    for (uint32_t i = 2; i <= 12; i++)
        ask(SIEVELAST_CREATE, 0, 1, i, 1 + i % 9), make(black, NULL), EXPECT_NUMBER(row(), 0);
    struct sievelast_drive sound = drive;
    uint8_t kept[sizeof buffer];
    memcpy(kept, buffer, sizeof buffer);
    ask_read(2, 9), make(black, NULL);
    for (size_t k = 0; k < RECORD_PARTS; k++)
        for (size_t i = 0; i < record_parts[k].count * SPOIL_WAYS; i += record_parts[k].count <= SIEVELAST_MEMORIES ? 1 : step) {
            drive = sound;
            spoil_one(k, i / SPOIL_WAYS, i % SPOIL_WAYS, &s);
            put_spoiled(&tallies[k], frame, frame_len, CLOCK, REPLY);
            put_draft(&tallies[k], &s);
            memcpy(buffer, kept, sizeof buffer);
        }
}

/* From a state that random calls made: each part spoiled in one to three numbers, then some calls. */
static void spoil_round(struct choices *s)
{
    static struct tally unspoiled;
    *under_way = 0;
    for (int i = 0; i < 12; i++)
        put_draft(&unspoiled, s);
    struct sievelast_drive sound = drive;
    uint8_t kept[sizeof buffer];
    memcpy(kept, buffer, sizeof buffer);
    for (size_t k = 0; k < RECORD_PARTS; k++) {
        for (uint32_t left = 1 + choose(s, 3); left; left--) {
            uint32_t i = choose(s, record_parts[k].count), way = choose(s, SPOIL_WAYS);
            spoil_one(k, i, way, s);
        }
        for (int calls = 0; calls < 3; calls++)
            put_draft(&tallies[k], s);
        drive = sound;
        memcpy(buffer, kept, sizeof buffer);
    }
}

static void spoiled(unsigned long rounds)
{
    struct choices s = {NULL, 0, 20260101};
    memset(answers, 0, sizeof answers);
    spoil_each(rounds < FEW_ROUNDS ? LONG_STEP : 1);
    for (unsigned long i = 0; i < rounds; i++) {
        if (i % 25 == 0) {
            memset(buffer, FILL, sizeof buffer);
            *under_way = 0;
            format(MEDIUM, 1 + choose(&s, 3), SIEVELAST_KEY_BYTES, SIEVELAST_KEY_BYTES);
            every_key();
        }
        spoil_round(&s);
    }
    *under_way = 0;
    for (size_t k = 0; k < RECORD_PARTS; k++) {
        const struct tally *t = &tallies[k];
        printf("store: %s spoiled: %lu records not sound, %lu sound, %lu calls granted\n", record_parts[k].name, t->unsound, t->judged,
               t->granted);
        EXPECT((t->unsound > 0) == record_parts[k].in_row_1);
        EXPECT(t->judged > 0 && t->granted > 0);
    }
    printf("store: of these through a group: %lu granted, %lu by a list that is none, %lu not a member, %lu a member that is not there\n",
           grouped_grants, answers[SIEVELAST_ROW_GROUP_LIST], answers[SIEVELAST_ROW_NOT_MEMBER], answers[SIEVELAST_ROW_NO_MEMBER]);
    for (int row = SIEVELAST_ROW_GROUP_LIST; row <= SIEVELAST_ROW_NO_MEMBER; row++)
        EXPECT(answers[row] > 0 || rounds < FEW_ROUNDS);
    EXPECT(grouped_grants > 0);
}

static void operation_tables(void)
{
    two_mills();
    odd_table();
    good_and_bad();
    rows_of_the_load();
    order_of_the_load();
    reply_of_the_load();
    table_stays();
    any_line();
}

int main(int argc, char **argv)
{
    unsigned long rounds = argc > 1 ? strtoul(argv[1], NULL, 10) : 400;
    int largest = argc <= 1;
    for (int i = 0; i < SIEVELAST_KEY_BYTES; i++)
        master[i] = (uint8_t)(3 * i + 1), drive_key[i] = (uint8_t)(250 - i);
    rows_of_the_frame();
    frame_lengths();
    rows_of_the_fields();
    rows_of_the_state();
    places();
    any_start();
    two_heads();
    entries_moved();
    memory_of_objects();
    operation_tables();
    groups(largest);
    for (int level = 0; level <= SIEVELAST_LEVEL_REPLY; level++)
        reply_spaces(level);
    alignments();
    formats(largest);
    issuer();
    hmacs(largest);
    for (uint64_t r = 0; r <= SIEVELAST_LAST_ROW; r++) {
        int large = r == SIEVELAST_ROW_MEDIUM_LARGE || r == SIEVELAST_ROW_DIGEST_INPUT;
        snprintf(under_way, sizeof under_way, "row %" PRIu64, r);
        EXPECT(answers[r] > 0 || (!largest && large) || r == SIEVELAST_ROW_REPLY); /* the last is the reply check's */
    }
    *under_way = 0;
    spoiled(rounds);
    printf("store: %d checks, %d failures\n", checks, failures);
    return failures != 0;
}
