/* Wrong drives of a group credential (change 6), for broken_gate.c: document 01 in C with one thing of a group wrong, in the real drive's
 * place. With nothing wrong (GROUPS_RIGHT) it must pass for the real one, so that what is noticed is the one thing. */
#ifndef FUZZ_BROKEN_GROUP_H
#define FUZZ_BROKEN_GROUP_H

enum { GROUPS_RIGHT = 100, SHORT_RECORDS = SIEVELAST_CREDENTIAL_BYTES + SIEVELAST_REQUEST_BYTES };

/* ---- rows 2 to 6 */
/* Row 6 of records that are what the wrong drive takes them for. */
static int wrong_row_6(const uint8_t *c, const uint8_t *r)
{
    uint8_t credential[SIEVELAST_CREDENTIAL_BYTES], request[SIEVELAST_GROUP_REQUEST_BYTES];
    int both = group_credential(c) && group_request(r), of_zero = number(c + 4, 4) == 0;
    copy(credential, c, sizeof credential);
    copy(request, r, request_length(r));
    if (BROKEN_gate == 54 && !group_request(r)) /* bit 7 with a 4C 52 request granted */
        credential[13] &= 0x7f;
    if (BROKEN_gate == 55 && group_request(r)) /* a 4C 47 request granted without bit 7 */
        credential[13] |= 0x80;
    if ((BROKEN_gate == 68 && both && !of_zero) || (BROKEN_gate == 69 && both && r[2] <= 3)) { /* operations over 3; object 0 */
        credential[13] &= 0x7f;
        put_number(request, 2, 0x4c52);
    }
    return paper_row_6(credential, request);
}

static uint64_t wrong_row_2_to_6(const uint8_t *frame, size_t frame_len)
{
    if (frame_len < SIEVELAST_LEAST_FRAME_BYTES)
        return 2;
    const uint8_t *c = frame, *r = frame + SIEVELAST_CREDENTIAL_BYTES;
    if (BROKEN_gate == 74 && group_request(r) && frame_len < SIEVELAST_GROUP_FRAME_BYTES) /* row 2 asks for 100 bytes */
        return 2;
    if (paper_row_3(c, r))
        return 3;
    if (paper_row_4(c, r) || (BROKEN_gate == 75 && group_credential(c))) /* bit 7 not allowed */
        return 4;
    size_t length = frame_length(r, number(r + 24, 4));
    if (BROKEN_gate == 58) /* 96 + n for every form */
        length = SIEVELAST_LEAST_FRAME_BYTES + number(r + 24, 4);
    if (paper_row_5(r) || frame_len != length)
        return 5;
    return wrong_row_6(c, r) ? 6 : 0;
}

/* ---- rows 7 to 13 */
/* The digest of records without the member's number, and of what comes behind them. */
static void short_digest(struct sievelast_drive *d, const struct paper_call *q, const uint8_t *more, size_t n, uint8_t out[32])
{
    static uint8_t covered[SHORT_RECORDS + 2 * MOST_BYTES];
    uint8_t key[32];
    credential_key(d, q, key);
    copy(covered, q->c, SHORT_RECORDS);
    copy(covered + SHORT_RECORDS, more, n);
    test_hmac(key, sizeof key, covered, SHORT_RECORDS + n, out);
}

/* The object that is entered as the nonce's. */
static struct paper_call nonce_of(struct paper_call q)
{
    if (BROKEN_gate == 53) /* the member */
        q.object = q.target;
    return q;
}

static uint64_t wrong_row_7_to_13(struct sievelast_drive *d, struct paper_call q, size_t frame_len)
{
    uint8_t digest[32];
    uint32_t missing = need_of(d, &q).mask;
    struct paper_call nonce = nonce_of(q);
    if (BROKEN_gate == 58 && frame_len < (size_t)(q.data - q.c) + q.n + sizeof digest)
        return 9; /* a frame of 96 bytes has its digest elsewhere */
    uint64_t row = row_7_to_13(d, &nonce);
    if (BROKEN_gate == 56 && q.grouped && (row == 0 || row > 8)) { /* the frame's digest without the member */
        short_digest(d, &q, q.data, q.level && q.n <= MOST_BYTES ? q.n : 0, digest);
        row = memcmp(digest, q.data + q.n, sizeof digest) ? 9 : row;
    }
    if (BROKEN_gate == 76 && q.grouped && row == 13 && missing <= SIEVELAST_EVERY_RIGHT) /* no right asked of a group credential */
        row = 0;
    return row;
}

/* ---- rows 14 to 17 and 32 to 34 */
static uint64_t number_in(const uint8_t *at)
{
    return BROKEN_gate == 62 ? (uint64_t)at[3] << 24 | at[2] << 16 | at[1] << 8 | at[0] : number(at, 4); /* the lowest byte first */
}

static int wrong_list(const uint8_t *bytes, size_t size, uint32_t member)
{
    uint64_t last = 0;
    for (size_t at = 0; at + 4 <= size; at += 4) {
        uint64_t x = number_in(bytes + at);
        int equal = BROKEN_gate == 45 && at && x == last;          /* equal numbers allowed */
        int zero = BROKEN_gate == 59 && at == 0 && x == 0;         /* 0 allowed as the first */
        int any = BROKEN_gate == 60 && x > 0;                      /* numbers in any order allowed */
        int unjudged = BROKEN_gate == 63 && at && at + 8 > size;   /* the last number not judged */
        if (x <= last && !equal && !zero && !any && !unjudged)
            return 0;
        if (BROKEN_gate == 61 && x == member) /* the list judged up to the member alone */
            return 1;
        last = x;
    }
    return BROKEN_gate == 46 || size % 4 == 0; /* a list of odd length allowed */
}

static int wrong_listed(const uint8_t *bytes, size_t size, uint32_t member)
{
    size_t end = BROKEN_gate == 64 && size >= 8 ? size - 4 : size; /* the last number not searched */
    for (size_t at = 0; at + 4 <= end; at += 4)
        if (number_in(bytes + at) == member)
            return 1;
    return 0;
}

/* In which order these rows are asked. */
static const uint8_t *wrong_order(void)
{
    static const uint8_t orders[][8] = {{14, 15, 32, 33, 34, 16, 17}, {14, 15, 32, 34, 33, 16, 17}, {14, 15, 16, 32, 33, 34, 17},
                                        {14, 32, 15, 33, 34, 16, 17}, {14, 15, 32, 16, 17, 33, 34}};
    switch (BROKEN_gate) {
    case 50: /* 34 before 33 */
        return orders[1];
    case 51: /* 16 before 32 */
        return orders[2];
    case 66: /* 32 before 15 */
        return orders[3];
    case 67: /* 16 and 17 before 33 */
        return orders[4];
    default:
        return orders[0];
    }
}

/* Rows 32 and 33: whether the list is one; whether it has the member. */
static int good_list(struct sievelast_drive *d, uint8_t *medium, const struct paper_call *q, int searched)
{
    const uint32_t *t = table_of(d, q->partition);
    int there = find_object(t, q->target) < t[COUNT_AT];
    uint32_t object = BROKEN_gate == 57 && there ? q->target : q->object; /* the member's bytes taken for the list */
    const uint8_t *bytes = object_bytes(d, medium, q->partition, object);
    size_t size = t[SIZES_AT + find_object(t, object)];
    return searched ? wrong_listed(bytes, size, q->target) : wrong_list(bytes, size, q->target);
}

static int meets_row(struct sievelast_drive *d, uint8_t *medium, const struct paper_call *q, uint64_t row)
{
    const uint32_t *t = table_of(d, q->partition), group = find_object(t, q->object), target = find_object(t, q->target);
    uint32_t versioned = BROKEN_gate == 52 && target < t[COUNT_AT] ? target : group; /* the version is the member's */
    uint32_t sized = BROKEN_gate == 48 ? group : target;                             /* the size is the group's */
    switch (row) {
    case 14:
        return group == t[COUNT_AT];
    case 15:
        return q->version != t[VERSIONS_AT + versioned];
    case 32:
        return !good_list(d, medium, q, 0);
    case 33:
        return !good_list(d, medium, q, 1);
    case 34:
        return target == t[COUNT_AT];
    case 16:
        return q->operation <= 2 && (q->first > q->a || q->sum > q->end);
    default:
        return q->operation <= 2 && sized < t[COUNT_AT] && q->sum > t[SIZES_AT + sized];
    }
}

static uint64_t wrong_group_row(struct sievelast_drive *d, uint8_t *medium, const struct paper_call *q)
{
    for (const uint8_t *row = wrong_order(); *row; row++)
        if (meets_row(d, medium, q, *row))
            return BROKEN_gate == 65 && *row >= 33 && *row <= 34 ? 67u - *row : *row; /* 33 and 34 exchanged */
    return 0;
}

static uint64_t wrong_row_7_to_34(struct sievelast_drive *d, uint8_t *medium, const struct paper_call *q, size_t frame_len, size_t reply_len)
{
    uint64_t row = wrong_row_7_to_13(d, *q, frame_len);
    if (row)
        return row;
    if (BROKEN_gate == 69 && q->object == 0) /* object 0 looked for */
        return 14;
    if ((row = wrong_group_row(d, medium, q)))
        return row;
    if ((row = row_18_to_21(table_of(d, q->partition), quarter_of(d), q)))
        return row;
    if (d->lengths[q->memory] == SIEVELAST_MOST_ENTRIES)
        return 22;
    return reply_len < reply_length(q) ? 23 : 0;
}

/* ---- a grant */
/* The object that is read, written or looked at. */
static uint32_t reached(const uint32_t *t, const struct paper_call *q)
{
    uint32_t i = find_object(t, q->target), behind = (i + 1) % t[COUNT_AT];
    int looks = q->operation == SIEVELAST_LOOK;
    if (BROKEN_gate == 47) /* the object behind the member in the table, where it is as large */
        return looks || t[SIZES_AT + behind] >= q->sum ? t[NUMBERS_AT + behind] : q->target;
    if (BROKEN_gate == 70 && looks) /* a look at the group */
        return q->object;
    if (BROKEN_gate == 72 && !looks && t[SIZES_AT + find_object(t, q->object)] >= q->sum) /* the group's bytes */
        return q->object;
    return q->target;
}

static size_t wrong_grant(struct sievelast_drive *d, uint8_t *medium, struct paper_call q, uint8_t *reply)
{
    const uint32_t *t = table_of(d, q.partition);
    struct paper_call nonce = nonce_of(q);
    uint8_t *result = reply + SIEVELAST_REPLY_HEAD_BYTES, key[32];
    size_t place = first_place(q.memory) + d->lengths[q.memory];
    q.target = reached(t, &q);
    size_t length = paper_grant(d, medium, &q, reply), n = paper_result(q.r);
    entry_of(&nonce, entry_at(d->entries, place));
    if (BROKEN_gate == 71 && q.operation == SIEVELAST_LOOK) { /* a look with the group's version */
        put_number(result + 4, 4, t[VERSIONS_AT + find_object(t, q.object)]);
        credential_key(d, &q, key);
        length = paper_reply(key, q.c, q.r, reply, n);
    }
    if (BROKEN_gate == 73 && q.level == 2) /* the reply's digest without the member */
        short_digest(d, &q, reply, SIEVELAST_REPLY_HEAD_BYTES + n, result + n);
    return length;
}

/* ---- the call */
static struct sievelast_answered wrong_gate(struct sievelast_drive *d, uint8_t *medium, size_t medium_len, const uint8_t *frame,
                                            size_t frame_len, uint64_t clock, uint8_t *reply, size_t reply_len)
{
    struct sievelast_answered a = {1, 0};
    if (!paper_sound(d) || medium_len != d->size)
        return a;
    if (clock > d->highwater)
        d->highwater = clock;
    for (int m = 0; m < SIEVELAST_MEMORIES; m++)
        drop_outlived(d, m);
    a.row = wrong_row_2_to_6(frame, frame_len);
    if (a.row)
        return a;
    struct paper_call q = paper_call_of(frame);
    if (BROKEN_gate == 49 && q.grouped) /* the member's number read four bytes early */
        q.target = q.n;
    if (!q.grouped) {
        a.row = row_7_to_34(d, medium, &q, reply_len);
        a.length = a.row ? 0 : paper_grant(d, medium, &q, reply);
        return a;
    }
    a.row = wrong_row_7_to_34(d, medium, &q, frame_len, reply_len);
    a.length = a.row ? 0 : wrong_grant(d, medium, q, reply);
    return a;
}

static struct sievelast_answered misgrouped(GATE_PARAMETERS)
{
    static struct sievelast_drive d;
    void *in[] = {&d.highwater, d.keys, d.tables, d.lengths, d.entries, d.times}, *out[] = {PARTS_PASSED};
    size_t bytes[] = {sizeof d.highwater, sizeof d.keys, sizeof d.tables, sizeof d.lengths, sizeof d.entries, sizeof d.times};
    d.size = size;
    for (size_t i = 0; i < sizeof in / sizeof *in; i++)
        copy(in[i], out[i], bytes[i]);
    struct sievelast_answered a = wrong_gate(&d, medium, medium_len, frame, frame_len, clock, reply, reply_len);
    for (size_t i = 0; i < sizeof in / sizeof *in; i++)
        copy(out[i], in[i], bytes[i]);
    return a;
}
#endif
