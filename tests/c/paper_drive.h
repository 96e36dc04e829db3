/* What document 01 says of format and gate, with changes 2, 3, 5 and 6 of document 02, in plain C over the record of sievelast_store.h, and
 * written from the papers: what each call must answer and leave behind, from any record, sound or not. */
#ifndef TESTS_PAPER_DRIVE_H
#define TESTS_PAPER_DRIVE_H
#include "entry.h"
#include "paper.h"
#include "table.h"

/* ---- the record's keys */
enum {
    DRIVE_KEY = 12, /* after four working keys 0, four working keys 1 and four partition keys */
    MASTER_KEY = 13,
    KEY_COUNT = 14,
    FLAGS_AT = KEY_COUNT * SIEVELAST_KEY_BYTES
};

static inline int key_place(int slot, int partition) { return slot < 3 ? 4 * slot + partition : slot == 3 ? DRIVE_KEY : MASTER_KEY; }

/* The place of the key that operation 7 sets. */
static inline int target_place(int slot, int partition, int a) { return slot == 4 ? DRIVE_KEY : slot == 3 ? 8 + a : 4 * a + partition; }

static inline uint8_t *key_at(struct sievelast_drive *d, int place) { return d->keys + place * SIEVELAST_KEY_BYTES; }

static inline uint64_t quarter_of(const struct sievelast_drive *d) { return d->size / 4; }

/* The place of an object in its table, or its count where it is not there. */
static inline uint32_t find_object(const uint32_t *t, uint32_t object)
{
    uint32_t i = 0;
    while (i < t[COUNT_AT] && t[NUMBERS_AT + i] != object)
        i++;
    return i;
}

/* ---- row 1; an area may start anywhere in its quarter, and no operation table is asked to be good */
static inline uint64_t end_of(const uint32_t *t, uint32_t i) { return (uint64_t)t[STARTS_AT + i] + t[SIZES_AT + i]; }

static inline int object_apart(const uint32_t *t, uint32_t i)
{
    for (uint32_t j = 0; j < i; j++)
        if (t[NUMBERS_AT + j] == t[NUMBERS_AT + i] || (t[STARTS_AT + j] < end_of(t, i) && t[STARTS_AT + i] < end_of(t, j)))
            return 0;
    return 1;
}

static inline int sound_table(const uint32_t *t, uint64_t quarter)
{
    if (t[COUNT_AT] > SIEVELAST_MOST_OBJECTS)
        return 0;
    for (uint32_t i = 0; i < t[COUNT_AT]; i++) {
        int inside = t[NUMBERS_AT + i] >= 1 && t[SIZES_AT + i] >= 1 && end_of(t, i) <= quarter && t[VERSIONS_AT + i] <= t[LAST_AT];
        if (!inside || !object_apart(t, i))
            return 0;
    }
    return 1;
}

static inline int paper_sound(struct sievelast_drive *d)
{
    int sound = d->size <= SIEVELAST_MOST_MEDIUM_BYTES;
    for (int p = 0; p < SIEVELAST_PARTITIONS; p++)
        sound = sound && sound_table(table_of(d, p), quarter_of(d));
    for (int m = 0; m < SIEVELAST_MEMORIES; m++)
        sound = sound && d->lengths[m] <= SIEVELAST_MOST_ENTRIES;
    return sound;
}

/* ---- the replay memories */
static inline void move_entry(struct sievelast_drive *d, size_t to, size_t from)
{
    d->times[to] = d->times[from];
    memmove(entry_at(d->entries, to), entry_at(d->entries, from), entry_bytes(1));
}

/* T + 5,000 is under the mark; the sum may pass 64 bits. */
static inline int outlived(uint64_t time, uint64_t mark) { return mark >= SIEVELAST_TIME_WINDOW && time < mark - SIEVELAST_TIME_WINDOW; }

static inline void drop_outlived(struct sievelast_drive *d, int memory)
{
    size_t first = first_place(memory), kept = 0;
    for (size_t i = 0; i < d->lengths[memory]; i++)
        if (!outlived(d->times[first + i], d->highwater))
            move_entry(d, first + kept++, first + i);
    d->lengths[memory] = kept;
}

/* ---- a frame's fields, read where the paper has them */
struct paper_call {
    const uint8_t *c, *r, *data; /* credential, request, data */
    uint64_t time, expiry, sum;  /* sum: A + B */
    uint32_t object, version, first, end, holder, count, a, b, n;
    uint32_t target; /* the object that is read, written or looked at: for a group the member, else the credential's */
    int partition, slot, rights, operation, level, memory, grouped;
};

/* The frame has at least row 2's 96 bytes, which "for every form" have every field. */
static inline struct paper_call paper_call_of(const uint8_t *frame)
{
    const uint8_t *c = frame, *r = frame + SIEVELAST_CREDENTIAL_BYTES;
    struct paper_call q = {.c = c, .r = r, .data = r + request_length(r), .grouped = group_request(r)};
    q.partition = c[2];
    q.slot = c[3];
    q.object = (uint32_t)number(c + 4, 4);
    q.version = (uint32_t)number(c + 8, 4);
    q.rights = (int)number(c + 12, 2);
    q.first = (uint32_t)number(c + 16, 4);
    q.end = (uint32_t)number(c + 20, 4);
    q.expiry = number(c + 24, 8);
    q.holder = (uint32_t)number(c + 32, 4);
    q.operation = r[2];
    q.level = r[3];
    q.time = number(r + 4, 8);
    q.count = (uint32_t)number(r + 12, 4);
    q.a = (uint32_t)number(r + 16, 4);
    q.b = (uint32_t)number(r + 20, 4);
    q.n = (uint32_t)number(r + 24, 4);
    q.sum = (uint64_t)q.a + q.b;
    q.memory = q.slot < 3 ? q.partition : 4;
    q.target = q.grouped ? (uint32_t)number(r + SIEVELAST_REQUEST_BYTES, 4) : q.object;
    return q;
}

/* The credential key, from the key that the record has in the credential's slot. */
static inline void credential_key(struct sievelast_drive *d, const struct paper_call *q, uint8_t out[32])
{
    test_hmac(key_at(d, key_place(q->slot, q->partition)), 32, q->c, SIEVELAST_CREDENTIAL_BYTES, out);
}

/* The digest that the frame must carry. */
static inline void frame_digest(struct sievelast_drive *d, const struct paper_call *q, uint8_t out[32])
{
    uint8_t key[32];
    credential_key(d, q, key);
    paper_digest(key, q->c, q->r, q->data, q->level ? q->n : 0, out);
}

/* ---- rows 2 to 23 and 31 to 34, the mark being this call's */
static inline uint64_t row_2_to_6(const uint8_t *frame, size_t frame_len)
{
    if (frame_len < SIEVELAST_LEAST_FRAME_BYTES)
        return 2;
    const uint8_t *c = frame, *r = frame + SIEVELAST_CREDENTIAL_BYTES;
    if (paper_row_3(c, r))
        return 3;
    if (paper_row_4(c, r))
        return 4;
    if (paper_row_5(r) || frame_len != frame_length(r, number(r + 24, 4)))
        return 5;
    return paper_row_6(c, r) ? 6 : 0;
}

/* Change 5: "Each partition gets a table for operations 1 to 7: a mask of required rights and a least level." "Frames under slots 3 and 4
 * .. keep document 01's rule, operation 8 treated as 7." Operation 8 itself is in no table: "rights bit 6, level at least 1". */
static inline struct need need_of(struct sievelast_drive *d, const struct paper_call *q)
{
    int tabled = q->slot <= 2 && q->operation <= 7;
    return tabled ? need_at(table_of(d, q->partition), q->operation) : need_by_rule(q->operation);
}

/* "A grant enters (slot, holder, T, count)." Change 2: "Each memory entry, and so row 12's nonce, has the credential's object too."
 * Change 6: "The nonce's object is the group." T is q->time; here are the other numbers. */
static inline void entry_of(const struct paper_call *q, uint32_t out[SIEVELAST_RECORD_ENTRY])
{
    out[ENTRY_SLOT] = (uint32_t)q->slot;
    out[ENTRY_HOLDER] = q->holder;
    out[ENTRY_COUNT] = q->count;
    out[ENTRY_OBJECT] = q->object;
}

static inline int replayed(const struct sievelast_drive *d, const struct paper_call *q)
{
    uint32_t nonce[SIEVELAST_RECORD_ENTRY];
    size_t first = first_place(q->memory);
    entry_of(q, nonce);
    for (size_t i = first; i < first + d->lengths[q->memory]; i++)
        if (d->times[i] == q->time && !memcmp(entry_seen(d->entries, i), nonce, sizeof nonce))
            return 1;
    return 0;
}

static inline uint64_t row_7_to_13(struct sievelast_drive *d, const struct paper_call *q)
{
    uint8_t digest[32];
    uint64_t mark = d->highwater;
    struct need n = need_of(d, q);
    if (paper_row_7(q->c, q->r, n))
        return 7;
    if (!d->keys[FLAGS_AT + key_place(q->slot, q->partition)])
        return 8;
    frame_digest(d, q, digest);
    if (memcmp(digest, q->data + q->n, sizeof digest))
        return 9;
    if (mark > q->expiry)
        return 10;
    if (outlived(q->time, mark) || (q->time > mark && q->time - mark > SIEVELAST_TIME_WINDOW))
        return 11;
    if (replayed(d, q))
        return 12;
    return n.mask & ~(uint32_t)q->rights ? 13 : 0; /* "every right in the mask being needed" */
}

/* Change 6: "Version is the group object's". */
static inline uint64_t row_14_and_15(const uint32_t *t, const struct paper_call *q)
{
    uint32_t i = find_object(t, q->object);
    if (q->object && i == t[COUNT_AT])
        return 14;
    return q->operation <= 6 && q->version != (q->object ? t[VERSIONS_AT + i] : t[VERSION_AT]) ? 15 : 0;
}

/* ---- groups. "A group object holds four-byte object numbers from 1, in strictly rising order, and no other byte." */
static inline int paper_list(const uint8_t *bytes, size_t size)
{
    uint64_t last = 0; /* so that the first is from 1 */
    for (size_t at = 0; at + 4 <= size; at += 4) {
        if (number(bytes + at, 4) <= last)
            return 0;
        last = number(bytes + at, 4);
    }
    return size % 4 == 0;
}

static inline int listed(const uint8_t *bytes, size_t size, uint32_t member)
{
    for (size_t at = 0; at + 4 <= size; at += 4)
        if (number(bytes + at, 4) == member)
            return 1;
    return 0;
}

/* "Turned away: 32, after row 15, when the group's bytes are no such list; 33, next, when the member is not in it; 34, next, when the member
 * does not exist." `bytes` are the group's. */
static inline uint64_t row_32_to_34(const uint32_t *t, const uint8_t *bytes, const struct paper_call *q)
{
    size_t size = t[SIZES_AT + find_object(t, q->object)];
    if (!paper_list(bytes, size))
        return 32;
    if (!listed(bytes, size, q->target))
        return 33;
    return find_object(t, q->target) == t[COUNT_AT] ? 34 : 0;
}

/* "Range, size, result .. are the member's". */
static inline uint64_t row_16_and_17(const uint32_t *t, const struct paper_call *q)
{
    if (q->operation > 2)
        return 0;
    if (q->first > q->a || q->sum > q->end)
        return 16;
    return q->sum > t[SIZES_AT + find_object(t, q->target)] ? 17 : 0;
}

/* An object's bytes in the medium. */
static inline uint8_t *object_bytes(struct sievelast_drive *d, uint8_t *medium, int partition, uint32_t object)
{
    const uint32_t *t = table_of(d, partition);
    return medium + (size_t)partition * quarter_of(d) + t[STARTS_AT + find_object(t, object)];
}

static inline uint64_t row_14_to_17(struct sievelast_drive *d, uint8_t *medium, const struct paper_call *q)
{
    const uint32_t *t = table_of(d, q->partition);
    uint64_t row = row_14_and_15(t, q);
    if (!row && q->grouped)
        row = row_32_to_34(t, object_bytes(d, medium, q->partition, q->object), q);
    return row ? row : row_16_and_17(t, q);
}

/* ---- where a create puts its area; all places count from the quarter's start */
struct gap {
    uint64_t from, end; /* one without a byte is none */
};

/* "A gap is a run of the quarter's bytes in no area that can't be lengthened at either end": the one that starts where area i ends, or
 * for the count of areas the one that starts at 0. */
static inline struct gap gap_behind(const uint32_t *t, uint64_t quarter, uint32_t i)
{
    struct gap g = {i < t[COUNT_AT] ? end_of(t, i) : 0, quarter};
    for (uint32_t j = 0; j < t[COUNT_AT]; j++)
        if (end_of(t, j) > g.from && t[STARTS_AT + j] < g.end)
            g.end = t[STARTS_AT + j] > g.from ? t[STARTS_AT + j] : g.from;
    return g;
}

/* Change 3: "The transfer unit moves sixteen bytes at a time, so a new area now starts at a multiple of 16 from the quarter's start; row 1
 * asks for no such step." */
enum { STEP = 16 };

/* "In a gap the place is the first such multiple, .. */
static inline uint64_t gap_place(struct gap g) { return (g.from + STEP - 1) / STEP * STEP; }

/* .. and the gap fits if B bytes remain from there." */
static inline int gap_fits(struct gap g, uint32_t b) { return gap_place(g) + b <= g.end; }

/* "The choice is still the smallest gap that fits, lowest start among equals." Length and start are the whole gap's. */
static inline int gap_wins(struct gap g, struct gap other)
{
    uint64_t length = g.end - g.from, other_length = other.end - other.from;
    return length < other_length || (length == other_length && g.from < other.from);
}

#define NOWHERE UINT64_MAX

/* "Row 20 is met exactly when no gap fits": then NOWHERE. */
static inline uint64_t new_start(const uint32_t *t, uint64_t quarter, uint32_t b)
{
    struct gap best = {0, NOWHERE}; /* larger than all */
    for (uint32_t i = 0; i <= t[COUNT_AT]; i++) {
        struct gap g = gap_behind(t, quarter, i);
        if (gap_fits(g, b) && gap_wins(g, best))
            best = g;
    }
    return best.end == NOWHERE ? NOWHERE : gap_place(best);
}

static inline uint64_t row_18_to_21(const uint32_t *t, uint64_t quarter, const struct paper_call *q)
{
    int creates = q->operation == 5;
    if (creates && find_object(t, q->a) < t[COUNT_AT])
        return 18;
    if (creates && t[COUNT_AT] == SIEVELAST_MOST_OBJECTS)
        return 19;
    if (creates && new_start(t, quarter, q->b) == NOWHERE)
        return 20;
    return (creates || q->operation == 4) && t[LAST_AT] == UINT32_MAX ? 21 : 0;
}

/* ---- operation 8's data: "21 data bytes, two of mask and one of level for each operation in order" */
static inline struct need need_in(const uint8_t *data, int operation)
{
    const uint8_t *at = data + 3 * (operation - 1);
    struct need n = {(uint32_t)number(at, 2), at[2]};
    return n;
}

static inline void put_need_in(uint8_t *data, int operation, struct need n)
{
    uint8_t *at = data + 3 * (operation - 1);
    put_number(at, 2, n.mask);
    at[2] = (uint8_t)n.level;
}

/* "A good table has every mask nonzero within bits 0 to 6, levels at most 2, and at least 1 for operation 7." */
static inline int good_table(const uint8_t *data)
{
    for (int op = 1; op <= 7; op++) {
        struct need n = need_in(data, op);
        if (n.mask == 0 || n.mask > 0x7f || n.level > 2 || (op == 7 && n.level < 1))
            return 0;
    }
    return 1;
}

/* "Turned away: 31, after row 21, when the table is not good." */
static inline uint64_t row_31(const struct paper_call *q) { return q->operation == 8 && !good_table(q->data) ? 31 : 0; }

static inline size_t reply_length(const struct paper_call *q)
{
    return SIEVELAST_REPLY_HEAD_BYTES + (size_t)paper_result(q->r) + (q->level == 2 ? SIEVELAST_DIGEST_BYTES : 0);
}

/* In the order in which they are judged: 7 to 15, 32 to 34, 16 to 21, 31, 22, 23. */
static inline uint64_t row_7_to_34(struct sievelast_drive *d, uint8_t *medium, const struct paper_call *q, size_t reply_len)
{
    uint64_t row = row_7_to_13(d, q);
    if (!row)
        row = row_14_to_17(d, medium, q);
    if (!row)
        row = row_18_to_21(table_of(d, q->partition), quarter_of(d), q);
    if (!row)
        row = row_31(q);
    if (!row && d->lengths[q->memory] == SIEVELAST_MOST_ENTRIES)
        row = 22;
    return !row && reply_len < reply_length(q) ? 23 : row;
}

/* ---- a grant: each operation's part, its result put behind the reply's head */
static inline void grant_bytes(struct sievelast_drive *d, uint8_t *medium, const struct paper_call *q, uint8_t *result)
{
    uint8_t *at = object_bytes(d, medium, q->partition, q->target) + q->a;
    if (q->b == 0)
        return;
    if (q->operation == 1)
        memcpy(result, at, q->b);
    else
        memcpy(at, q->data, q->b);
}

static inline void grant_look(struct sievelast_drive *d, const struct paper_call *q, uint8_t *result)
{
    uint32_t *t = table_of(d, q->partition), i = find_object(t, q->target);
    put_number(result, 4, q->target ? t[SIZES_AT + i] : quarter_of(d));
    put_number(result + 4, 4, q->target ? t[VERSIONS_AT + i] : t[VERSION_AT]);
}

static inline void grant_raise(struct sievelast_drive *d, const struct paper_call *q, uint8_t *result)
{
    uint32_t *t = table_of(d, q->partition);
    t[LAST_AT]++;
    t[q->object ? VERSIONS_AT + find_object(t, q->object) : VERSION_AT] = t[LAST_AT];
    put_number(result, 4, t[LAST_AT]);
}

static inline void grant_create(struct sievelast_drive *d, uint8_t *medium, const struct paper_call *q, uint8_t *result)
{
    uint32_t *t = table_of(d, q->partition);
    uint64_t start = new_start(t, quarter_of(d), q->b);
    memset(medium + (size_t)q->partition * quarter_of(d) + start, 0, q->b);
    t[LAST_AT]++;
    add_object(t, q->a, t[LAST_AT], q->b, (uint32_t)start);
    put_number(result, 4, t[LAST_AT]);
}

static inline void grant_delete(struct sievelast_drive *d, const struct paper_call *q)
{
    uint32_t *t = table_of(d, q->partition);
    t[COUNT_AT]--;
    for (uint32_t i = find_object(t, q->object); i < t[COUNT_AT]; i++)
        for (int list = NUMBERS_AT; list <= STARTS_AT; list += SIEVELAST_MOST_OBJECTS)
            t[list + i] = t[list + i + 1];
}

static inline void grant_key(struct sievelast_drive *d, const struct paper_call *q)
{
    int place = target_place(q->slot, q->partition, (int)q->a);
    uint8_t new_key[32];
    test_hmac(key_at(d, key_place(q->slot, q->partition)), 32, q->r, SIEVELAST_REQUEST_BYTES + SIEVELAST_SEED_BYTES, new_key);
    memcpy(key_at(d, place), new_key, sizeof new_key);
    d->keys[FLAGS_AT + place] = 1;
}

static inline void grant_table(struct sievelast_drive *d, const struct paper_call *q)
{
    for (int op = 1; op <= 7; op++)
        put_need(table_of(d, q->partition), op, need_in(q->data, op));
}

static inline size_t paper_grant(struct sievelast_drive *d, uint8_t *medium, const struct paper_call *q, uint8_t *reply)
{
    uint8_t key[32], *result = reply + SIEVELAST_REPLY_HEAD_BYTES;
    size_t place = first_place(q->memory) + d->lengths[q->memory]++;
    credential_key(d, q, key);
    if (q->operation <= 2)
        grant_bytes(d, medium, q, result);
    else if (q->operation == 3)
        grant_look(d, q, result);
    else if (q->operation == 4)
        grant_raise(d, q, result);
    else if (q->operation == 5)
        grant_create(d, medium, q, result);
    else if (q->operation == 6)
        grant_delete(d, q);
    else if (q->operation == 7)
        grant_key(d, q);
    else
        grant_table(d, q);
    d->times[place] = q->time;
    entry_of(q, entry_at(d->entries, place));
    return paper_reply(key, q->c, q->r, reply, paper_result(q->r));
}

/* ---- the two calls */
static inline struct sievelast_answered paper_gate(struct sievelast_drive *d, uint8_t *medium, size_t medium_len, const uint8_t *frame,
                                                   size_t frame_len, uint64_t clock, uint8_t *reply, size_t reply_len)
{
    struct sievelast_answered a = {1, 0};
    if (!paper_sound(d) || medium_len != d->size)
        return a;
    if (clock > d->highwater)
        d->highwater = clock;
    for (int m = 0; m < SIEVELAST_MEMORIES; m++)
        drop_outlived(d, m);
    a.row = row_2_to_6(frame, frame_len);
    if (a.row)
        return a;
    struct paper_call q = paper_call_of(frame);
    a.row = row_7_to_34(d, medium, &q, reply_len);
    if (!a.row)
        a.length = paper_grant(d, medium, &q, reply);
    return a;
}

/* A drive that has nothing. Its operation tables start, "in row 24's drive too, as document 01's rule". */
static inline void empty_drive(struct sievelast_drive *d)
{
    memset(d, 0, sizeof *d);
    for (int p = 0; p < SIEVELAST_PARTITIONS; p++)
        for (int op = 1; op <= 7; op++)
            put_need(table_of(d, p), op, need_by_rule(op));
}

static inline uint64_t paper_format(struct sievelast_drive *d, uint8_t *medium, size_t medium_len, uint32_t first, const uint8_t *master,
                                    size_t master_len, const uint8_t *key, size_t key_len)
{
    empty_drive(d);
    if (medium_len > SIEVELAST_MOST_MEDIUM_BYTES)
        return 24;
    if (first == 0)
        return 25;
    if (master_len != SIEVELAST_KEY_BYTES || key_len != SIEVELAST_KEY_BYTES)
        return 26;
    if (medium_len)
        memset(medium, 0, medium_len);
    d->size = medium_len;
    memcpy(key_at(d, MASTER_KEY), master, SIEVELAST_KEY_BYTES);
    memcpy(key_at(d, DRIVE_KEY), key, SIEVELAST_KEY_BYTES);
    d->keys[FLAGS_AT + MASTER_KEY] = d->keys[FLAGS_AT + DRIVE_KEY] = 1;
    for (int p = 0; p < SIEVELAST_PARTITIONS; p++)
        table_of(d, p)[VERSION_AT] = table_of(d, p)[LAST_AT] = first;
    return 0;
}

/* ---- two records compared. What stands behind a table's count, behind a memory's length or in a key that is not set says nothing. */
static inline int same_key(struct sievelast_drive *a, struct sievelast_drive *b, int place)
{
    int set = a->keys[FLAGS_AT + place] != 0;
    return set == (b->keys[FLAGS_AT + place] != 0) && (!set || !memcmp(key_at(a, place), key_at(b, place), SIEVELAST_KEY_BYTES));
}

static inline int same_table(const uint32_t *a, const uint32_t *b)
{
    int same = a[VERSION_AT] == b[VERSION_AT] && a[LAST_AT] == b[LAST_AT] && a[COUNT_AT] == b[COUNT_AT];
    size_t n = a[COUNT_AT] < SIEVELAST_MOST_OBJECTS ? a[COUNT_AT] : SIEVELAST_MOST_OBJECTS;
    for (int list = NUMBERS_AT; list <= STARTS_AT; list += SIEVELAST_MOST_OBJECTS)
        same = same && !memcmp(a + list, b + list, n * sizeof *a);
    return same && !memcmp(a + MASKS_AT, b + MASKS_AT, (TABLE_NUMBERS - MASKS_AT) * sizeof *a);
}

/* The first n entries of a memory. */
static inline int same_entries(const struct sievelast_drive *a, const struct sievelast_drive *b, int memory, size_t n)
{
    size_t i = first_place(memory);
    return a->lengths[memory] == b->lengths[memory] && !memcmp(a->times + i, b->times + i, n * sizeof *a->times) &&
           !memcmp(entry_seen(a->entries, i), entry_seen(b->entries, i), entry_bytes(n));
}

/* Whether a key, table or memory is what it must be after a call that found it as `before`. One that the call does not change keeps
 * every byte. */
static inline int key_right(struct sievelast_drive *before, struct sievelast_drive *right, struct sievelast_drive *found, int place)
{
    uint8_t *flags[] = {before->keys + FLAGS_AT + place, right->keys + FLAGS_AT + place, found->keys + FLAGS_AT + place};
    int keeps = *flags[0] == *flags[1] && !memcmp(key_at(before, place), key_at(right, place), SIEVELAST_KEY_BYTES);
    if (keeps)
        return *flags[0] == *flags[2] && !memcmp(key_at(before, place), key_at(found, place), SIEVELAST_KEY_BYTES);
    return same_key(right, found, place);
}

static inline int table_right(const uint32_t *before, const uint32_t *right, const uint32_t *found)
{
    size_t bytes = TABLE_NUMBERS * sizeof *found;
    return memcmp(before, right, bytes) ? same_table(right, found) : !memcmp(before, found, bytes);
}

static inline int memory_right(const struct sievelast_drive *before, const struct sievelast_drive *right,
                               const struct sievelast_drive *found, int memory)
{
    if (same_entries(before, right, memory, SIEVELAST_MOST_ENTRIES))
        return same_entries(before, found, memory, SIEVELAST_MOST_ENTRIES);
    return right->lengths[memory] <= SIEVELAST_MOST_ENTRIES && same_entries(right, found, memory, right->lengths[memory]);
}

/* Whether a sound record is what it must be after a call: NULL, or what differs. */
static inline const char *record_difference(struct sievelast_drive *before, struct sievelast_drive *right, struct sievelast_drive *found)
{
    if (found->size != right->size)
        return "the size differs";
    if (found->highwater != right->highwater)
        return "the mark differs";
    for (int k = 0; k < KEY_COUNT; k++)
        if (!key_right(before, right, found, k))
            return "a key differs";
    for (int p = 0; p < SIEVELAST_PARTITIONS; p++)
        if (!table_right(table_of(before, p), table_of(right, p), table_of(found, p)))
            return "a table differs";
    for (int m = 0; m < SIEVELAST_MEMORIES; m++)
        if (!memory_right(before, right, found, m))
            return "a replay memory differs";
    return NULL;
}
#endif
