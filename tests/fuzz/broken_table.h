/* Wrong drives of a mill's own operation table (change 5), for broken_gate.c: each lets the real drive judge by another line or another
 * frame than it was lent, or spoils what it gives. */
#ifndef FUZZ_BROKEN_TABLE_H
#define FUZZ_BROKEN_TABLE_H

static uint32_t *own_table(const struct paper_call *q, uint32_t *tables) { return tables + q->partition * TABLE_NUMBERS; }

/* What a wrong drive reads in the place of its partition's line for the operation. */
static struct need wrong_line(const struct paper_call *q, uint32_t *tables)
{
    struct need n = need_at(own_table(q, tables), q->operation);
    uint32_t held = n.mask & (uint32_t)q->rights;
    int next = (q->partition + 1) % SIEVELAST_PARTITIONS;
    switch (BROKEN_gate) {
    case 31: /* any right of the mask will do */
        n.mask = held ? held : n.mask;
        return n;
    case 36: /* the neighbour's table */
        return need_at(tables + next * TABLE_NUMBERS, q->operation);
    case 38: /* the table's level not compared */
        n.level = 0;
        return n;
    case 43: /* a mask's bits over 6 not counted */
        n.mask &= SIEVELAST_EVERY_RIGHT;
        return n;
    default:
        return n;
    }
}

static struct sievelast_answered by_wrong_line(const struct paper_call *q, GATE_PARAMETERS)
{
    uint32_t *t = own_table(q, tables);
    struct need kept = need_at(t, q->operation);
    put_need(t, q->operation, wrong_line(q, tables));
    struct sievelast_answered a = __real_sievelast_gate_parts(GATE_PASSED);
    put_need(t, q->operation, kept);
    return a;
}

/* The table's line for setting a key asked of a frame that keeps document 01's rule. */
static struct sievelast_answered by_table_too(const struct paper_call *q, GATE_PARAMETERS)
{
    struct need n = need_at(own_table(q, tables), SIEVELAST_SET_KEY);
    if ((uint32_t)q->level < n.level)
        return turned_away(SIEVELAST_ROW_LEVEL_LOW, q, GATE_PASSED);
    if (n.mask & ~(uint32_t)q->rights)
        return turned_away(SIEVELAST_ROW_RIGHT_MISSING, q, GATE_PASSED);
    return __real_sievelast_gate_parts(GATE_PASSED);
}

/* A line that a wrong drive takes for good, as the real one takes it. */
static struct need made_good(struct need n, int operation)
{
    uint32_t within = n.mask & SIEVELAST_EVERY_RIGHT;
    if (BROKEN_gate == 35 && operation == SIEVELAST_SET_KEY && n.level == 0) /* operation 7 at level 0 taken for good */
        n.level = 1;
    if (BROKEN_gate == 37 && n.mask <= 0xff && n.mask > within) /* bit 7 allowed in a mask */
        n.mask = within ? within : 1;
    return n;
}

/* The real drive on a frame with a good table, signed where the other was; at a grant the record has the other's. */
static struct sievelast_answered taken_for_good(const struct paper_call *q, GATE_PARAMETERS)
{
    uint8_t good[SIEVELAST_LEAST_FRAME_BYTES + SIEVELAST_TABLE_BYTES], digest[SIEVELAST_DIGEST_BYTES];
    struct sievelast_drive d;
    copy(d.keys, keys, sizeof d.keys);
    copy(good, frame, sizeof good);
    frame_digest(&d, q, digest);
    if (!memcmp(digest, q->data + q->n, sizeof digest)) {
        for (int op = 1; op <= SIEVELAST_TABLE_OPERATIONS; op++)
            put_need_in(good + (q->data - frame), op, made_good(need_in(q->data, op), op));
        struct paper_call other = paper_call_of(good);
        frame_digest(&d, &other, good + sizeof good - sizeof digest);
    }
    struct sievelast_answered a =
        __real_sievelast_gate_parts(size, PARTS_PASSED, medium, medium_len, good, frame_len, clock, reply, reply_len);
    for (int op = 1; a.row == 0 && op <= SIEVELAST_TABLE_OPERATIONS; op++)
        put_need(own_table(q, tables), op, need_in(q->data, op));
    return a;
}

/* What came of a call, spoilt. */
static struct sievelast_answered spoilt_after(struct sievelast_answered a, const struct paper_call *q, PARTS)
{
    uint32_t *t = own_table(q, tables);
    int granted = a.row == 0 ? q->operation : 0, full = lengths[q->memory] == SIEVELAST_MOST_ENTRIES;
    if (BROKEN_gate == 32 && a.row == SIEVELAST_ROW_TABLE && full) /* row 31 after row 22 */
        a.row = SIEVELAST_ROW_MEMORY_FULL;
    if (BROKEN_gate == 39 && a.row == SIEVELAST_ROW_LEVEL_LOW && !keys[FLAGS_AT + key_place(q->slot, q->partition)])
        a.row = SIEVELAST_ROW_KEY_UNSET; /* row 8 before row 7 */
    for (int op = 1; op <= SIEVELAST_TABLE_OPERATIONS; op++) {
        if (BROKEN_gate == 33 && granted == SIEVELAST_RAISE) /* a raise puts the table back */
            put_need(t, op, need_by_rule(op));
        if (BROKEN_gate == 40 && granted == SIEVELAST_LOAD_TABLE) /* a table loaded one operation off */
            put_need(t, op % SIEVELAST_TABLE_OPERATIONS + 1, need_in(q->data, op));
    }
    (void)highwater, (void)entries, (void)times;
    return a;
}

/* Whether a record's operation table is not good. */
static int bad_table(const uint32_t *tables)
{
    for (const uint32_t *t = tables; t < tables + SIEVELAST_RECORD_TABLES; t += TABLE_NUMBERS)
        for (int op = 1; op <= SIEVELAST_TABLE_OPERATIONS; op++) {
            struct need n = need_at(t, op);
            if (n.mask == 0 || n.mask > SIEVELAST_EVERY_RIGHT || n.level > 2 || (op == SIEVELAST_SET_KEY && n.level == 0))
                return 1;
        }
    return 0;
}

/* The real drive, but for an operation table. */
static struct sievelast_answered mistabled(GATE_PARAMETERS)
{
    struct sievelast_answered unsound = {1, 0};
    if (BROKEN_gate == 44 && bad_table(tables)) /* row 1 asks for good tables */
        return unsound;
    if (row_2_to_6(frame, frame_len))
        return __real_sievelast_gate_parts(GATE_PASSED);
    struct paper_call q = paper_call_of(frame);
    int loads = q.operation == SIEVELAST_LOAD_TABLE;
    if (BROKEN_gate == 34 && q.slot > 2) /* slots 3 and 4 by the table */
        return by_table_too(&q, GATE_PASSED);
    if (BROKEN_gate == 41 && loads) /* operation 8 by the table */
        return by_table_too(&q, GATE_PASSED);
    if (loads)
        return spoilt_after(taken_for_good(&q, GATE_PASSED), &q, PARTS_PASSED);
    if (q.slot > 2)
        return spoilt_after(__real_sievelast_gate_parts(GATE_PASSED), &q, PARTS_PASSED);
    return spoilt_after(by_wrong_line(&q, GATE_PASSED), &q, PARTS_PASSED);
}
#endif
