/* sievelast_format_parts and sievelast_gate_parts on any list of calls, over a record that is sound or spoiled. Row, length and every
 * byte of reply, medium and record are document 01's (paper_drive.h); and what the paper promises of every call is checked without it.
 *
 * An input is a list of choices (tests/c/draft.h); choices that it lacks are 0, which are those of good calls. First a format: M, the
 * first version, whether the record stays fresh; then steps until the bytes end, each a kind and what it needs. Every frame is signed
 * by the record's own keys. Each input is played twice: with every part, frame, reply and medium at the end of its page, where one byte
 * too far faults, and at the start, where one byte before does. */
#include "lend.h"
#include "spoil.h"

enum { MOST_STEPS = 40, MOST_SIZE = PAGE, RAW_FRAME = 200, TRANSFER = 16 };

static struct area parts[RECORD_PARTS], medium, frame, reply, master, key;
static struct sievelast_drive drive; /* what the parts held after the last call */
static int at_start;

static void areas_make(void)
{
    struct area *others[] = {&medium, &frame, &reply, &master, &key};
    if (medium.pages)
        return;
    for (size_t i = 0; i < RECORD_PARTS; i++)
        area_make(&parts[i], pages_for(record_parts[i].width * record_parts[i].count));
    for (size_t i = 0; i < sizeof others / sizeof *others; i++)
        area_make(others[i], 1);
}

/* ---- the record lent in parts, and gathered again */
static void record_lend(void)
{
    for (size_t i = 0; i < RECORD_PARTS; i++) {
        const struct record_part *p = &record_parts[i];
        memcpy(area_lend(&parts[i], p->width * p->count, at_start, 0), (uint8_t *)&drive + p->at, p->width * p->count);
    }
}

static struct sievelast_drive record_gather(void)
{
    struct sievelast_drive d = drive;
    for (size_t i = 0; i < RECORD_PARTS; i++) {
        area_intact(&parts[i]);
        memcpy((uint8_t *)&d + record_parts[i].at, parts[i].lent, parts[i].length);
    }
    return d;
}

static uint8_t *bytes_of(int part) { return parts[part].lent; }
static uint32_t *words_of(int part) { return (uint32_t *)(void *)parts[part].lent; }
static uint64_t *longs_of(int part) { return (uint64_t *)(void *)parts[part].lent; }

static uint64_t format_parts(uint32_t first)
{
    return sievelast_format_parts(longs_of(0), longs_of(1), bytes_of(2), words_of(3), longs_of(4), words_of(5), longs_of(6),
                                  medium.given, medium.length, first, master.given, master.length, key.given, key.length);
}

static struct sievelast_answered gate_parts(size_t medium_len, uint64_t clock)
{
    return sievelast_gate_parts(*longs_of(0), longs_of(1), bytes_of(2), words_of(3), longs_of(4), words_of(5), longs_of(6),
                                medium.given, medium_len, frame.given, frame.length, clock, reply.given, reply.length);
}

/* ---- format: of a medium that holds anything, over a record that holds anything */
static void a_format(struct choices *s)
{
    static uint8_t right_medium[MOST_SIZE];
    struct sievelast_drive right;
    uint32_t way = choose(s, 8), first = way == 1 ? 0 : 1 + choose(s, 4);
    size_t size = choose(s, MOST_SIZE + 1);
    if (way == 2)
        first = UINT32_MAX;
    area_lend(&medium, size, at_start, 1);
    memset(medium.lent, FILL, size);
    memset(right_medium, FILL, size);
    memset(area_lend(&master, way == 3 ? 31 : 32, at_start, 0), 0x4d, way == 3 ? 31 : 32);
    memset(area_lend(&key, way == 4 ? 0 : 32, at_start, 1), 0x4b, way == 4 ? 0 : 32);
    area_shut(&master), area_shut(&key);
    record_lend();
    uint64_t row = format_parts(first);
    MUST(row == 0 || row == 25 || row == 26);
    MUST(row == paper_format(&right, right_medium, size, first, master.lent, master.length, key.lent, key.length));
    drive = record_gather();
    MUST(record_difference(&right, &right, &drive) == NULL);
    area_intact(&medium);
    MUST(size == 0 || !memcmp(medium.lent, right_medium, size));
}

/* Objects in partition 0, each in a room of its own, by falling or by rising starts. Areas start anywhere, on a step of the transfer unit
 * or off it. Behind each is a gap, or none: gaps of up to three lengths in turn, so that some are equal. */
static void prepare_objects(struct choices *s)
{
    uint32_t *t = table_of(&drive, 0), n = choose(s, SIEVELAST_MOST_OBJECTS + 1), spread = choose(s, 256);
    uint32_t rising = spread % 2, more = spread / 2 % 4, gap = spread / 8, room = n ? (uint32_t)quarter_of(&drive) / n : 0;
    for (uint32_t i = 0; room && i < n; i++)
        add_object(t, i + 1, t[LAST_AT], room - (gap + i % 3 * more) % room, room * (rising ? i : n - 1 - i));
}

/* A fresh record made one that has seen much, so that a list need not begin with all that: every key is set, partition 0 has objects,
 * gaps between them or not, its replay memory and the fifth have entries, and no byte of the medium is 0. */
static void prepare(struct choices *s)
{
    memset(medium.lent, FILL, medium.length);
    for (size_t i = 0; i < sizeof drive.keys; i++)
        drive.keys[i] = i < FLAGS_AT ? (uint8_t)(i * 11 + 3) : 1;
    prepare_objects(s);
    drive.lengths[0] = choose(s, SIEVELAST_MOST_ENTRIES + 1);
    drive.lengths[4] = choose(s, SIEVELAST_MOST_ENTRIES + 1);
    drive.highwater = choose(s, 12000);
    for (size_t i = 0; i < SIEVELAST_RECORD_PLACES; i++) {
        drive.times[i] = drive.highwater + 2000 - i % SIEVELAST_MOST_ENTRIES * 100;
        entry_at(drive.entries, i)[ENTRY_COUNT] = (uint32_t)i;
        entry_at(drive.entries, i)[ENTRY_OBJECT] = (uint32_t)i % 3;
    }
}

/* ---- a call of the gate */
static uint8_t medium_before[MOST_SIZE], right_medium[MOST_SIZE], right_reply[DRAFT_REPLY];

/* A create's object is its partition's last, has the number and size that were asked for, starts where the transfer unit can move it, and
 * lies inside the quarter. */
static void promised_object(const struct paper_call *q, struct sievelast_drive *after)
{
    const uint32_t *t = table_of(after, q->partition), last = t[COUNT_AT] - 1;
    MUST(last < SIEVELAST_MOST_OBJECTS);
    MUST(t[NUMBERS_AT + last] == q->a && t[SIZES_AT + last] == q->b);
    MUST(t[STARTS_AT + last] % TRANSFER == 0);
    MUST((uint64_t)t[STARTS_AT + last] + q->b <= after->size / SIEVELAST_PARTITIONS);
}

/* "A grant keeps to the table that earlier grants loaded": under slots 0 to 2, operations 1 to 7 have every right and the level that their
 * partition's had. Operation 8 loads its own partition's, and no other grant changes one. */
static void promised_tables(const struct paper_call *q, struct sievelast_drive *before, struct sievelast_drive *after)
{
    int loads = q->operation == SIEVELAST_LOAD_TABLE;
    if (!loads && q->slot <= SIEVELAST_SLOT_PARTITION) {
        struct need n = need_at(table_of(before, q->partition), q->operation);
        MUST((n.mask & ~(uint32_t)q->rights) == 0 && n.level <= (uint32_t)q->level);
    }
    for (int p = 0; p < SIEVELAST_PARTITIONS; p++)
        for (int op = 1; op <= SIEVELAST_TABLE_OPERATIONS; op++) {
            struct need n = need_at(table_of(after, p), op), old = need_at(table_of(before, p), op);
            const uint8_t *line = q->data + 3 * (op - 1);
            int own = loads && p == q->partition;
            MUST(n.mask == (own ? (uint32_t)line[0] << 8 | line[1] : old.mask) && n.level == (own ? line[2] : old.level));
        }
}

/* An object's place in its table, which has it. */
static uint32_t place_of(const uint32_t *t, uint32_t object)
{
    uint32_t i = 0;
    while (i < SIEVELAST_MOST_OBJECTS && (i >= t[COUNT_AT] || t[NUMBERS_AT + i] != object))
        i++;
    MUST(i < SIEVELAST_MOST_OBJECTS);
    return i;
}

/* "Four-byte object numbers from 1, in strictly rising order, and no other byte", and the member among them. */
static void promised_list(const uint8_t *list, uint32_t size, uint32_t member)
{
    uint8_t before[SIEVELAST_MEMBER_BYTES] = {0}, wanted[SIEVELAST_MEMBER_BYTES];
    int found = 0;
    put_number(wanted, sizeof wanted, member);
    MUST(size % sizeof wanted == 0);
    for (uint32_t at = 0; at < size; at += sizeof wanted) {
        MUST(memcmp(before, list + at, sizeof before) < 0); /* as bytes, the highest first, and as numbers alike */
        memcpy(before, list + at, sizeof before);
        found += !memcmp(wanted, before, sizeof wanted);
    }
    MUST(found == 1);
}

/* A grant through a group: what it did was done to the member, by the group's version and a list that has it. */
static void promised_group(const struct paper_call *q, struct sievelast_drive *before, struct sievelast_drive *after)
{
    const uint32_t *t = table_of(before, q->partition), group = place_of(t, q->object), member = place_of(t, q->target);
    size_t quarter = q->partition * (before->size / SIEVELAST_PARTITIONS), at = quarter + t[STARTS_AT + member];
    const uint8_t *result = reply.lent + SIEVELAST_REPLY_HEAD_BYTES;
    MUST(q->object != 0 && q->operation <= SIEVELAST_LOOK && q->slot <= SIEVELAST_SLOT_GOLD && q->version == t[VERSIONS_AT + group]);
    promised_list(medium_before + quarter + t[STARTS_AT + group], t[SIZES_AT + group], q->target);
    MUST(entry_at(after->entries, first_place(q->memory) + after->lengths[q->memory] - 1)[ENTRY_OBJECT] == q->object);
    if (q->operation == SIEVELAST_LOOK) {
        MUST(number(result, 4) == t[SIZES_AT + member] && number(result + 4, 4) == t[VERSIONS_AT + member]);
        return;
    }
    MUST(q->first <= q->a && q->sum <= q->end && q->sum <= t[SIZES_AT + member]);
    if (q->operation == SIEVELAST_READ && q->b)
        MUST(!memcmp(result, medium_before + at + q->a, q->b));
    for (size_t i = 0; i < medium.length; i++) {
        size_t in = i - (at + q->a);
        int written = q->operation == SIEVELAST_WRITE && i >= at + q->a && in < q->b;
        MUST(medium.lent[i] == (written ? q->data[in] : medium_before[i]));
    }
}

/* What holds of every call, judged without the paper's gate. */
static void promised(struct sievelast_answered a, struct sievelast_drive *before, struct sievelast_drive *after)
{
    MUST(a.row <= 23 || (a.row >= 31 && a.row <= 34));
    MUST(after->size == before->size);
    MUST(after->highwater >= before->highwater);
    if (a.row == 1)
        MUST(!memcmp(before, after, sizeof *before));
    if (a.row) {
        MUST(a.length == 0);
        MUST(medium.length == 0 || !memcmp(medium.lent, medium_before, medium.length));
        MUST(!memcmp(before->keys, after->keys, sizeof before->keys) && !memcmp(before->tables, after->tables, sizeof before->tables));
    }
    if (a.row == 0) {
        struct paper_call q = paper_call_of(frame.lent);
        MUST(a.length == reply_length(&q) && a.length <= reply.length);
        if (q.operation == SIEVELAST_CREATE)
            promised_object(&q, after);
        MUST(q.grouped == ((q.rights & SIEVELAST_GROUP_RIGHT) != 0));
        if (q.grouped)
            promised_group(&q, before, after);
        promised_tables(&q, before, after);
    }
    for (size_t i = a.length; i < reply.length; i++)
        MUST(reply.lent[i] == FILL);
}

/* Puts the frame at hand, with so much of the medium. */
static uint64_t put(size_t medium_len, uint64_t clock)
{
    struct sievelast_drive before = drive, right = drive;
    memset(reply.lent, FILL, reply.length);
    memset(right_reply, FILL, sizeof right_reply);
    if (medium.length) {
        memcpy(medium_before, medium.lent, medium.length);
        memcpy(right_medium, medium.lent, medium.length);
    }
    record_lend();
    struct sievelast_answered a = gate_parts(medium_len, clock);
    drive = record_gather();
    area_intact(&medium), area_intact(&reply);
    promised(a, &before, &drive);
    struct sievelast_answered b = paper_gate(&right, right_medium, medium_len, frame.lent, frame.length, clock, right_reply, reply.length);
    MUST(a.row == b.row);
    MUST(a.length == b.length);
    MUST(reply.length == 0 || !memcmp(reply.lent, right_reply, reply.length));
    MUST(medium.length == 0 || !memcmp(medium.lent, right_medium, medium.length));
    MUST(a.row == 1 || record_difference(&before, &right, &drive) == NULL);
    return a.row;
}

/* ---- the steps of a list */
/* The medium that the record names, where there is so much: a spoiled size may be a smaller one. */
static size_t named_medium(void) { return drive.size <= medium.length ? drive.size : medium.length; }

static void frame_lend(const uint8_t *bytes, size_t length, size_t space)
{
    area_lend(&frame, length, at_start, 1);
    if (length)
        memcpy(frame.lent, bytes, length);
    area_shut(&frame);
    area_lend(&reply, space, at_start, 1);
}

static void a_draft(struct choices *s, size_t medium_len)
{
    struct draft f;
    draft_call(&f, &drive, drive.size <= medium.length ? medium.lent : NULL, s);
    frame_lend(f.frame, f.length, draft_space(&f, s));
    if (put(medium_len, f.clock) == 0)
        MUST(put(medium_len, f.clock) == 12); /* the same call again */
}

static void a_raw_frame(struct choices *s)
{
    uint8_t bytes[RAW_FRAME];
    size_t length = choose(s, RAW_FRAME + 1);
    for (size_t i = 0; i < length; i++)
        bytes[i] = choose_byte(s);
    frame_lend(bytes, length, choose(s, 64));
    put(medium.length, choose_number(s, 8));
}

static void a_spoil(struct choices *s)
{
    const struct record_part *p = &record_parts[choose(s, RECORD_PARTS)];
    uint32_t i = choose(s, p->count), way = choose(s, SPOIL_WAYS);
    spoil_number(&drive, p, i, way, s);
}

/* A line of an operation table that the record has from now on; no table that is loaded need have it. */
static void a_line(struct choices *s)
{
    uint32_t *t = table_of(&drive, (int)choose(s, SIEVELAST_PARTITIONS));
    int operation = 1 + (int)choose(s, SIEVELAST_TABLE_OPERATIONS);
    uint32_t way = choose(s, 4);
    struct need n = draft_line(s);
    if (way == 1)
        n.mask = (uint32_t)choose_number(s, 4);
    if (way == 2)
        n.level = (uint32_t)choose_number(s, 4);
    put_need(t, operation, n);
}

/* A format, and mostly a record that has seen much. */
static void start(struct choices *s)
{
    int fresh = choose(s, 4) == 1;
    a_format(s);
    if (!fresh)
        prepare(s);
}

static void a_step(struct choices *s)
{
    switch (choose(s, 16)) {
    case 9:
        a_line(s);
        a_draft(s, named_medium());
        break;
    case 10:
    case 11:
        a_spoil(s);
        a_draft(s, named_medium());
        break;
    case 12:
        a_raw_frame(s);
        break;
    case 13:
        if (frame.lent)
            put(medium.length, drive.highwater + choose(s, 6000)); /* the last frame, later */
        break;
    case 14:
        a_draft(s, medium.length - (medium.length > 0));
        break;
    case 15:
        start(s);
        break;
    default:
        a_draft(s, named_medium());
    }
}

static void play(const uint8_t *bytes, size_t size)
{
    struct choices s = {bytes, size, 0};
    memset(&drive, FILL, sizeof drive);
    frame.lent = NULL;
    start(&s);
    for (int i = 0; i < MOST_STEPS && s.left; i++)
        a_step(&s);
}

int LLVMFuzzerTestOneInput(const uint8_t *bytes, size_t size);
int LLVMFuzzerTestOneInput(const uint8_t *bytes, size_t size)
{
    areas_make();
    for (at_start = 0; at_start < 2; at_start++)
        play(bytes, size);
    return 0;
}
