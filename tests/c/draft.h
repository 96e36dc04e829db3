/* Calls drafted from a list of choices: an input's bytes, or random ones. No two choices stand in one expression, since a compiler may
 * take them in either order, and an input must mean the same to each. A draft knows the record, takes its objects, versions, mark
 * and keys, and is mostly one that no row refuses; then it may be spoiled, is signed, and may be spoiled once more. */
#ifndef TESTS_DRAFT_H
#define TESTS_DRAFT_H
#include "paper_drive.h"

enum {
    DRAFT_DATA = 700,   /* most bytes of a read or write: more than the eight blocks that a digest may take at once */
    DRAFT_REPLY = 1200, /* most bytes of a reply space */
    DRAFT_FRAME = SIEVELAST_GROUP_FRAME_BYTES + DRAFT_DATA + 8
};

struct choices {
    const uint8_t *at; /* the bytes, .. */
    size_t left;       /* .. so many; then random ones, */
    uint64_t state;    /* or only 0 where this is 0 */
};

static inline uint8_t choose_byte(struct choices *s)
{
    if (s->left) {
        s->left--;
        return *s->at++;
    }
    if (!s->state)
        return 0;
    s->state ^= s->state << 13;
    s->state ^= s->state >> 7;
    s->state ^= s->state << 17;
    return (uint8_t)(s->state >> 32);
}

static inline uint64_t choose_number(struct choices *s, int width)
{
    uint64_t x = 0;
    for (int i = 0; i < width; i++)
        x = x << 8 | choose_byte(s);
    return x;
}

/* A number below another, which is not 0. */
static inline uint32_t choose(struct choices *s, uint64_t below)
{
    return (uint32_t)(choose_number(s, below <= 256 ? 1 : below <= 65536 ? 2 : 4) % below);
}

struct draft {
    struct sievelast_credential who;
    struct sievelast_request what;
    int grouped;     /* the request is a group's, .. */
    uint32_t member; /* .. with this member */
    uint64_t clock;
    size_t length;
    uint8_t frame[DRAFT_FRAME];
};

/* Where the data of a frame stands, and how long the frame is. */
static inline size_t draft_records_length(const struct draft *f)
{
    return SIEVELAST_CREDENTIAL_BYTES + (f->grouped ? SIEVELAST_GROUP_REQUEST_BYTES : SIEVELAST_REQUEST_BYTES);
}

static inline size_t draft_length(const struct draft *f) { return draft_records_length(f) + f->what.data_len + SIEVELAST_DIGEST_BYTES; }

/* "A grant of operation 8, like one that sets a key, is bound to no version": the credential's is 0. */
static inline int draft_unversioned(const struct draft *f) { return f->what.operation >= SIEVELAST_SET_KEY; }

/* How many objects a table has, as far as it has places. */
static inline uint32_t draft_count(const uint32_t *t) { return t[COUNT_AT] < SIEVELAST_MOST_OBJECTS ? t[COUNT_AT] : SIEVELAST_MOST_OBJECTS; }

/* Slot, partition, object and its present version. What would need an object where there is none, a group too, mostly creates one. */
static inline void draft_who(struct draft *f, struct sievelast_drive *d, struct choices *s)
{
    int op = f->what.operation, named = op == SIEVELAST_READ || op == SIEVELAST_WRITE || op == SIEVELAST_DELETE || f->grouped;
    struct sievelast_credential who = {UINT64_MAX, 0, 0, 0, UINT32_MAX, 0, SIEVELAST_EVERY_RIGHT, 0, 0, 0};
    uint32_t place = choose(s, 2 * SIEVELAST_PARTITIONS);
    who.slot = (uint8_t)(op == SIEVELAST_SET_KEY ? 2 + choose(s, 3) : op == SIEVELAST_LOAD_TABLE ? 2 : choose(s, 2));
    who.partition = (uint8_t)(who.slot < 3 && place < SIEVELAST_PARTITIONS ? place : 0); /* partition 0 more often, so that it fills */
    who.holder = choose(s, 4);
    uint32_t *t = table_of(d, who.partition), n = draft_count(t);
    if (!draft_unversioned(f))
        who.version = t[VERSION_AT];
    if (n && (named || ((op == SIEVELAST_LOOK || op == SIEVELAST_RAISE) && choose(s, 2)))) {
        uint32_t i = choose(s, n);
        who.object = t[NUMBERS_AT + i];
        who.version = t[VERSIONS_AT + i];
    } else if (named && choose(s, 8) == 1) {
        who.object = 1;
    } else if (named) {
        f->what.operation = SIEVELAST_CREATE;
        f->grouped = 0;
    }
    f->who = who;
}

/* ---- lists for groups, put where an object's bytes are: no call need have written them */
/* Rising numbers, and one thing of a list that may be wrong. */
static inline void draft_numbers(uint8_t *bytes, uint32_t *size, struct choices *s)
{
    uint32_t way = choose(s, 16), first = 1 + choose(s, 4), step = 1 + choose(s, 3), n = *size / 4, at = n > 1 ? 1 + choose(s, n - 1) : 0;
    for (uint32_t i = 0; i < n; i++)
        put_number(bytes + 4 * i, 4, first + i * step);
    switch (way) {
    case 1: put_number(bytes, 4, 0); break;
    case 2: put_number(bytes + 4 * at, 4, at ? first + (at - 1) * step : first); break; /* two are equal */
    case 3: put_number(bytes + 4 * at, 4, at > 1 ? first + (at - 2) * step : 0); break; /* one falls */
    case 4: put_number(bytes + 4 * (n - 1), 4, UINT32_MAX); break;
    case 5: *size -= choose(s, 4); break;
    case 6: *size = 4; break;
    default: break;
    }
}

/* The draft's object becomes a group, and loses what is over a multiple of four; or it stays as it is. One of its numbers. */
static inline uint32_t draft_list(const struct draft *f, struct sievelast_drive *d, uint8_t *medium, struct choices *s)
{
    uint32_t *t = table_of(d, f->who.partition), i = find_object(t, f->who.object), *size = &t[SIZES_AT + i];
    if (!sound_table(t, quarter_of(d)) || i == t[COUNT_AT] || *size < 4)
        return 1;
    uint8_t *bytes = object_bytes(d, medium, f->who.partition, f->who.object);
    if (choose(s, 4) < 3) {
        *size -= *size % 4;
        draft_numbers(bytes, size, s);
    }
    return *size < 4 ? 1 : (uint32_t)number(bytes + 4 * choose(s, *size / 4), 4);
}

/* A group credential, mostly for an object with a list, and a member, mostly one of it. */
static inline void draft_member(struct draft *f, struct sievelast_drive *d, uint8_t *medium, struct choices *s)
{
    const uint32_t *t = table_of(d, f->who.partition), n = draft_count(t);
    f->who.rights |= SIEVELAST_GROUP_RIGHT;
    f->member = medium ? draft_list(f, d, medium, s) : 1;
    switch (choose(s, 16)) {
    case 1: f->member = 0; break;
    case 2: f->member = f->who.object; break;
    case 3: f->member = UINT32_MAX; break;
    case 4: f->member = 1 + choose(s, 8); break;
    case 5: f->member = n ? t[NUMBERS_AT + choose(s, n)] : 1; break;
    default: break;
    }
}

/* A clock reading near the mark, and a time near the mark that it makes: at the edges of row 11, or within. */
static inline void draft_when(struct draft *f, const struct sievelast_drive *d, struct choices *s)
{
    static const int64_t off[] = {0, 0, 0, 1, -1, 5000, -5000, 5001, -5001, 2500, -2500, 0};
    uint32_t clock = choose(s, 32);
    f->clock = clock < 12 ? d->highwater + (uint64_t)off[clock] : clock < 24 ? d->highwater + choose(s, 100) : d->highwater;
    if (clock == 31)
        f->clock = choose_number(s, 8);
    uint64_t mark = f->clock > d->highwater ? f->clock : d->highwater;
    uint32_t time = choose(s, 24);
    f->what.time = time < 12 ? mark + (uint64_t)off[time] : mark;
    f->what.count = choose(s, 256);
}

/* What the drive will ask of the draft. */
static inline struct need draft_need(const struct draft *f, struct sievelast_drive *d)
{
    struct paper_call q = {.partition = f->who.partition, .slot = f->who.slot, .operation = f->what.operation};
    return need_of(d, &q);
}

/* A and B, the data's length, and a level that is enough, where there is one. */
static inline void draft_what(struct draft *f, struct sievelast_drive *d, struct choices *s)
{
    uint32_t *t = table_of(d, f->who.partition), i = 0, target = f->grouped ? f->member : f->who.object;
    while (i + 1 < SIEVELAST_MOST_OBJECTS && t[NUMBERS_AT + i] != target)
        i++;
    uint64_t size = t[SIZES_AT + i] < 65536 ? t[SIZES_AT + i] : 65536;
    struct sievelast_request *r = &f->what;
    r->a = r->b = r->data_len = 0;
    if (r->operation == SIEVELAST_READ || r->operation == SIEVELAST_WRITE) {
        r->a = choose(s, size + 1);
        r->b = choose(s, (size - r->a < DRAFT_DATA ? size - r->a : DRAFT_DATA) + 1);
        r->data_len = r->operation == SIEVELAST_WRITE ? r->b : 0;
    } else if (r->operation == SIEVELAST_CREATE) {
        r->a = 1 + choose(s, 40);
        r->b = 1 + choose(s, quarter_of(d) < 65536 ? quarter_of(d) / 4 + 1 : 65536);
    } else if (r->operation == SIEVELAST_SET_KEY) {
        r->a = choose(s, f->who.slot == 2 ? 2 : f->who.slot == 3 ? 4 : 1);
        r->data_len = SIEVELAST_SEED_BYTES;
    } else if (r->operation == SIEVELAST_LOAD_TABLE) {
        r->data_len = SIEVELAST_TABLE_BYTES;
    }
    uint32_t least = draft_need(f, d).level;
    if (r->level < least && least <= SIEVELAST_LEVEL_REPLY)
        r->level = (uint8_t)least;
}

/* A mask and a level, mostly good ones, whatever the operation. */
static inline struct need draft_line(struct choices *s)
{
    struct need n;
    uint32_t way = choose(s, 16);
    n.mask = 1 + choose(s, SIEVELAST_EVERY_RIGHT);
    n.level = choose(s, 3);
    switch (way) {
    case 1: n.mask = 0; break;
    case 2: n.mask += SIEVELAST_EVERY_RIGHT + 1; break;
    case 3: n.mask <<= 8; break;
    case 4: n.level = 3; break;
    case 5: n.level += 253; break;
    default: break;
    }
    return n;
}

/* The data of operation 8: document 01's rule, with up to three lines of another kind. */
static inline void draft_table(uint8_t *data, struct choices *s)
{
    struct need n[SIEVELAST_TABLE_OPERATIONS];
    for (int i = 0; i < SIEVELAST_TABLE_OPERATIONS; i++)
        n[i] = need_by_rule(i + 1);
    for (uint32_t left = choose(s, 4); left; left--) {
        uint32_t i = choose(s, SIEVELAST_TABLE_OPERATIONS);
        n[i] = draft_line(s);
    }
    for (int i = 0; i < SIEVELAST_TABLE_OPERATIONS; i++)
        put_need_in(data, i + 1, n[i]);
}

static inline void draft_data(struct draft *f, struct choices *s)
{
    uint8_t *data = f->frame + draft_records_length(f);
    for (uint32_t i = 0; i < f->what.data_len; i++)
        data[i] = (uint8_t)(f->what.count + 1 + 7 * i);
    if (f->what.operation == SIEVELAST_LOAD_TABLE)
        draft_table(data, s);
}

/* Holder, time and count of an entry of the draft's memory, and its slot where that is a working key's: the draft repeats a frame, or
 * is another object's under the same numbers. */
static inline void draft_again(struct draft *f, const struct sievelast_drive *d, struct choices *s)
{
    int memory = f->who.slot < 3 ? f->who.partition : 4;
    uint64_t n = d->lengths[memory] < SIEVELAST_MOST_ENTRIES ? d->lengths[memory] : SIEVELAST_MOST_ENTRIES;
    if (n == 0)
        return;
    size_t place = first_place(memory) + choose(s, n);
    const uint32_t *entry = entry_seen(d->entries, place);
    if (f->who.slot < 2 && entry[ENTRY_SLOT] < 2)
        f->who.slot = (uint8_t)entry[ENTRY_SLOT];
    f->who.holder = entry[ENTRY_HOLDER];
    f->what.count = entry[ENTRY_COUNT];
    f->what.time = d->times[place];
}

/* A size for a create at the edge of a gap of its partition: what remains from the gap's first multiple of the step, all that the gap has,
 * or one byte more than either. */
static inline void draft_edge(struct draft *f, struct sievelast_drive *d, struct choices *s)
{
    const uint32_t *t = table_of(d, f->who.partition);
    if (f->what.operation != SIEVELAST_CREATE || !sound_table(t, quarter_of(d)))
        return;
    struct gap g = gap_behind(t, quarter_of(d), choose(s, t[COUNT_AT] + 1));
    uint64_t place = gap_place(g), all = g.end - g.from, remain = place < g.end ? g.end - place : 0;
    uint32_t way = choose(s, 4);
    f->what.b = (uint32_t)((way < 2 ? remain : all) + way % 2);
}

/* The rights that the drive will ask for and no other; or without one of them; or the one that document 01 has for the operation. */
static inline void draft_rights(struct draft *f, struct sievelast_drive *d, struct choices *s)
{
    uint32_t mask = draft_need(f, d).mask, way = choose(s, 4), bit = choose(s, SIEVELAST_TABLE_OPERATIONS);
    if (way == 1)
        mask &= ~((uint32_t)1 << bit);
    else if (way == 2)
        mask = SIEVELAST_RIGHT(f->what.operation);
    f->who.rights = (uint16_t)((mask & SIEVELAST_EVERY_RIGHT) | (f->grouped ? SIEVELAST_GROUP_RIGHT : 0));
}

/* One field that a row from 6 to 20, or 32 to 34, is about, mostly none. */
static inline void spoil_field(struct draft *f, struct sievelast_drive *d, struct choices *s)
{
    struct sievelast_credential *who = &f->who;
    struct sievelast_request *what = &f->what;
    switch (choose(s, 40)) {
    case 1: who->least = 2; break;
    case 2: who->expiry = d->highwater; break;
    case 3: who->expiry = f->clock - 1; break;
    case 4: who->rights &= (uint16_t)~SIEVELAST_RIGHT(what->operation); break;
    case 5: who->object++; break;
    case 6: who->version++; break;
    case 7: who->first = what->a + 1; break;
    case 8: who->end = what->a + what->b - 1; break;
    case 9: what->b += what->operation == SIEVELAST_READ ? 1 : 0; break;
    case 10: what->a += 1; break;
    case 11: what->b = (uint32_t)quarter_of(d) + 1; break;
    case 12: who->slot = (uint8_t)choose(s, 5); break;
    case 13: draft_again(f, d, s); break;
    case 14:
    case 15:
    case 16:
    case 17: draft_edge(f, d, s); break;
    case 18:
    case 19:
    case 20: draft_rights(f, d, s); break;
    case 21: what->level -= what->level > 0; break;
    case 22: f->member++; break;
    case 23: who->rights ^= SIEVELAST_GROUP_RIGHT; break;
    case 24: f->grouped = !f->grouped; break;
    case 25: who->object = f->grouped ? f->member : who->object; break;
    default: break;
    }
}

/* The records' bytes as document 01 has them, without the library's encoders. */
static inline void draft_records(struct draft *f)
{
    uint8_t *c = f->frame, *r = f->frame + SIEVELAST_CREDENTIAL_BYTES;
    memset(f->frame, 0, sizeof f->frame);
    put_number(c, 2, 0x4c43);
    c[2] = f->who.partition;
    c[3] = f->who.slot;
    put_number(c + 4, 4, f->who.object);
    put_number(c + 8, 4, f->who.version);
    put_number(c + 12, 2, f->who.rights);
    c[14] = f->who.least;
    put_number(c + 16, 4, f->who.first);
    put_number(c + 20, 4, f->who.end);
    put_number(c + 24, 8, f->who.expiry);
    put_number(c + 32, 4, f->who.holder);
    put_number(r, 2, f->grouped ? 0x4c47 : 0x4c52);
    r[2] = f->what.operation;
    r[3] = f->what.level;
    put_number(r + 4, 8, f->what.time);
    put_number(r + 12, 4, f->what.count);
    put_number(r + 16, 4, f->what.a);
    put_number(r + 20, 4, f->what.b);
    put_number(r + 24, 4, f->what.data_len);
    if (f->grouped)
        put_number(r + 28, 4, f->member);
}

/* Signs the frame by the record's own keys, where its slot and partition name one. */
static inline void draft_sign(struct draft *f, struct sievelast_drive *d)
{
    struct paper_call q = paper_call_of(f->frame);
    if (q.slot <= 4 && q.partition <= 3 && q.n <= DRAFT_DATA)
        frame_digest(d, &q, f->frame + f->length - SIEVELAST_DIGEST_BYTES);
}

/* A byte of the first n, changed; mostly none. */
static inline void spoil_byte(struct draft *f, size_t n, struct choices *s)
{
    if (choose(s, 16) != 1)
        return;
    uint32_t at = choose(s, n);
    f->frame[at] ^= (uint8_t)(1 + choose(s, 255));
}

/* Another length than the frame's parts have together, mostly not. */
static inline void draft_cut(struct draft *f, struct choices *s)
{
    uint32_t way = choose(s, 32);
    if (way == 1)
        f->length = choose(s, sizeof f->frame + 1);
    else if (way == 2)
        f->length -= 1 + choose(s, 5);
    else if (way == 3)
        f->length += 1 + choose(s, 4);
}

/* A call drafted for a record. The medium, where it is as the record says, else NULL, is for a group's list. */
static inline void draft_call(struct draft *f, struct sievelast_drive *d, uint8_t *medium, struct choices *s)
{
    enum { ANY_OPERATION = 21 }; /* a group's request for one that no group has */
    static const uint8_t operations[] = {SIEVELAST_READ,   SIEVELAST_WRITE,  SIEVELAST_LOOK,    SIEVELAST_RAISE, SIEVELAST_CREATE,
                                         SIEVELAST_DELETE, SIEVELAST_SET_KEY, SIEVELAST_CREATE, SIEVELAST_READ,  SIEVELAST_WRITE,
                                         SIEVELAST_LOAD_TABLE};
    uint8_t kind = choose_byte(s), form = kind / sizeof operations;
    f->what.operation = operations[kind % sizeof operations];
    f->what.level = (uint8_t)choose(s, 3);
    f->grouped = form % 4 == 1;
    f->member = 0;
    if (f->grouped && form != ANY_OPERATION)
        f->what.operation = (uint8_t)(SIEVELAST_READ + f->what.operation % SIEVELAST_LOOK);
    draft_who(f, d, s);
    if (f->grouped)
        draft_member(f, d, medium, s);
    draft_when(f, d, s);
    draft_what(f, d, s);
    spoil_field(f, d, s);
    draft_records(f);
    f->length = draft_length(f);
    draft_data(f, s);
    spoil_byte(f, draft_records_length(f), s);
    draft_sign(f, d);
    spoil_byte(f, f->length, s);
    draft_cut(f, s);
}

/* How much reply space to lend: mostly what the request calls for and something more. */
static inline size_t draft_space(const struct draft *f, struct choices *s)
{
    struct paper_call q = paper_call_of(f->frame);
    size_t right = reply_length(&q) < DRAFT_REPLY - 256 ? reply_length(&q) : DRAFT_REPLY - 256;
    uint32_t way = choose(s, 8);
    return way == 1 ? right - 1 : way == 2 ? right : way == 3 ? choose(s, right) : right + choose(s, 200);
}
#endif
