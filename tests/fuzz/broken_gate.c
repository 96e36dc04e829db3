/* Wrong drives, to see that the target `gate` and store_test notice: linked with -Wl,--wrap, each spoils what the proved code gives, or
 * stands in its place. BROKEN_gate says which. */
#include "paper_drive.h"
#include "parts.h"

uint64_t __real_sievelast_format_parts(FORMAT_PARAMETERS);
uint64_t __wrap_sievelast_format_parts(FORMAT_PARAMETERS);
struct sievelast_answered __real_sievelast_gate_parts(GATE_PARAMETERS);
struct sievelast_answered __wrap_sievelast_gate_parts(GATE_PARAMETERS);

/* A byte past or before a space, or of a const one, written where no sanitizer looks. */
__attribute__((no_sanitize("address", "undefined"), unused)) static void spoil(const void *at) { *(volatile uint8_t *)(uintptr_t)at = 1; }

/* The place of the entry that a granted frame made: the last of its memory. */
__attribute__((unused)) static size_t entered(const uint8_t *frame, const uint64_t *lengths)
{
    struct paper_call q = paper_call_of(frame);
    return first_place(q.memory) + lengths[q.memory] - 1;
}

/* Whether its memory held the time and the numbers that stand before the object already: then for another object. */
__attribute__((unused)) static int other_object(const uint8_t *frame, const uint64_t *lengths, const uint32_t *entries,
                                                const uint64_t *times)
{
    size_t last = entered(frame, lengths);
    for (size_t i = last / SIEVELAST_MOST_ENTRIES * SIEVELAST_MOST_ENTRIES; i < last; i++)
        if (times[i] == times[last] && !memcmp(entry_seen(entries, i), entry_seen(entries, last), ENTRY_OBJECT * sizeof *entries))
            return 1;
    return 0;
}

/* In memories that lost entries each place gets the object back that it had before. */
__attribute__((unused)) static void objects_stay(const uint32_t *before, uint32_t *entries, const uint64_t *held,
                                                 const uint64_t *lengths)
{
    for (int m = 0; m < SIEVELAST_MEMORIES; m++) {
        size_t first = first_place(m), end = lengths[m] < held[m] ? first + lengths[m] : first;
        for (size_t i = first; i < end; i++)
            entry_at(entries, i)[ENTRY_OBJECT] = entry_seen(before, i)[ENTRY_OBJECT];
    }
}

/* Whether an area of the record starts off the step. */
__attribute__((unused)) static int off_step(const uint32_t *tables)
{
    for (const uint32_t *t = tables; t < tables + SIEVELAST_RECORD_TABLES; t += TABLE_NUMBERS)
        for (uint32_t i = 0; i < t[COUNT_AT] && i < SIEVELAST_MOST_OBJECTS; i++)
            if (t[STARTS_AT + i] % STEP)
                return 1;
    return 0;
}

/* ---- drives that judge otherwise than the real one, which is asked all the same */
#if BROKEN_gate > 21
enum { MOST_BYTES = 4096 };

static void copy(void *to, const void *from, size_t n)
{
    if (n)
        memcpy(to, from, n);
}
#endif

#if BROKEN_gate > 21 && BROKEN_gate <= 44
/* The real drive where the wrong one meets a row more: a grant is undone, and the row comes before what the real drive goes on to. */
static struct sievelast_answered turned_away(uint64_t row, const struct paper_call *q, GATE_PARAMETERS)
{
    static uint8_t medium_before[MOST_BYTES], reply_before[MOST_BYTES];
    uint8_t keys_before[SIEVELAST_RECORD_KEYS];
    uint32_t before[SIEVELAST_RECORD_TABLES];
    copy(keys_before, keys, sizeof keys_before);
    copy(before, tables, sizeof before);
    copy(medium_before, medium, medium_len);
    copy(reply_before, reply, reply_len);
    struct sievelast_answered a = __real_sievelast_gate_parts(GATE_PASSED), refused = {row, 0};
    if (a.row == 0) {
        copy(keys, keys_before, sizeof keys_before);
        copy(tables, before, sizeof before);
        copy(medium, medium_before, medium_len);
        copy(reply, reply_before, reply_len);
        lengths[q->memory]--;
    }
    return a.row && a.row <= row ? a : refused;
}
#endif

#if BROKEN_gate > 30 && BROKEN_gate <= 44
#include "broken_table.h"
#endif

#if BROKEN_gate > 44
#include "broken_group.h"
#endif

/* ---- drives that put a create's area by another rule than change 3's */
#if BROKEN_gate > 21 && BROKEN_gate <= 30
enum { OTHER_STEP = 8 };

static uint64_t wrong_place(struct gap g, uint64_t quarter_start)
{
    switch (BROKEN_gate) {
    case 22: /* steps of eight bytes */
        return (g.from + OTHER_STEP - 1) / OTHER_STEP * OTHER_STEP;
    case 23: /* the place rounded down */
        return g.from / STEP * STEP;
    case 24: /* multiples counted from the medium's start */
        return (quarter_start + g.from + STEP - 1) / STEP * STEP - quarter_start;
    case 25: /* a multiple on which the gap starts passed over */
        return (g.from / STEP + 1) * STEP;
    default:
        return gap_place(g);
    }
}

static int wrong_fit(struct gap g, uint64_t place, uint32_t b)
{
    switch (BROKEN_gate) {
    case 26: /* fitting judged from the gap's start */
        return g.from + b <= g.end;
    case 27: /* an exact fit refused */
        return place + b < g.end;
    case 28: /* one byte more granted */
        return place + b <= g.end + 1;
    default:
        return place + b <= g.end;
    }
}

struct choice {
    uint64_t start, zeroed, length; /* where the area starts, and from where its bytes are zeroed; NOWHERE where no gap fits */
};

static struct choice wrong_choice(const uint32_t *t, uint64_t quarter, const struct paper_call *q)
{
    struct choice best = {NOWHERE, NOWHERE, NOWHERE};
    for (uint32_t i = 0; i <= t[COUNT_AT]; i++) {
        struct gap g = gap_behind(t, quarter, i);
        uint64_t place = wrong_place(g, (uint64_t)q->partition * quarter);
        uint64_t length = g.end - (BROKEN_gate == 29 ? place : g.from); /* 29: gaps measured from their first multiple */
        struct choice c = {place, BROKEN_gate == 30 ? g.from : place, length}; /* 30: zeroed from the gap's start */
        int wins = c.length < best.length || (c.length == best.length && c.start < best.start);
        if (g.from < g.end && wrong_fit(g, place, q->b) && wins)
            best = c;
    }
    return best;
}

/* The real drive on a medium with wider quarters, where the partition's objects lie behind the narrower one, so that it finds room for
 * the new one; then all is put where the wrong rule has it, as far as the medium goes. */
static struct sievelast_answered placed(struct choice c, const struct paper_call *q, GATE_PARAMETERS)
{
    static uint8_t wider[MOST_BYTES + SIEVELAST_PARTITIONS * SIEVELAST_MOST_OBJECTS];
    uint64_t quarter = size / SIEVELAST_PARTITIONS, wide = SIEVELAST_PARTITIONS * (quarter + SIEVELAST_MOST_OBJECTS);
    uint32_t *t = tables + q->partition * TABLE_NUMBERS, before[TABLE_NUMBERS], n = t[COUNT_AT];
    copy(before, t, sizeof before);
    for (uint32_t i = 0; i < n; i++)
        t[SIZES_AT + i] = 1, t[STARTS_AT + i] = (uint32_t)quarter + i;
    struct sievelast_answered a =
        __real_sievelast_gate_parts(wide, PARTS_PASSED, wider, wide, frame, frame_len, clock, reply, reply_len);
    copy(t + SIZES_AT, before + SIZES_AT, n * sizeof *t);
    copy(t + STARTS_AT, before + STARTS_AT, n * sizeof *t);
    if (a.row)
        return a;
    t[STARTS_AT + n] = (uint32_t)c.start;
    for (uint64_t i = 0, at = (uint64_t)q->partition * quarter + c.zeroed; i < q->b && at + i < medium_len; i++)
        medium[at + i] = 0;
    return a;
}

/* The real drive, but for where a create puts its area. */
static struct sievelast_answered misplaced(GATE_PARAMETERS)
{
    struct sievelast_drive d = {.size = size};
    copy(d.tables, tables, sizeof d.tables);
    copy(d.lengths, lengths, sizeof d.lengths);
    int judged = paper_sound(&d) && medium_len == size && !row_2_to_6(frame, frame_len);
    if (!judged || paper_call_of(frame).operation != SIEVELAST_CREATE)
        return __real_sievelast_gate_parts(GATE_PASSED);
    struct paper_call q = paper_call_of(frame);
    struct choice c = wrong_choice(table_of(&d, q.partition), quarter_of(&d), &q);
    return c.start == NOWHERE ? turned_away(SIEVELAST_ROW_NO_GAP, &q, GATE_PASSED) : placed(c, &q, GATE_PASSED);
}
#endif

uint64_t __wrap_sievelast_format_parts(FORMAT_PARAMETERS)
{
    uint64_t kept = *highwater;
    uint64_t row = __real_sievelast_format_parts(FORMAT_PASSED);
#if BROKEN_gate == 1 /* a refused format leaves a part of the record */
    if (row)
        *highwater = kept;
#elif BROKEN_gate == 2 /* a refused format clears the medium */
    if (row && medium_len)
        memset(medium, 0, medium_len);
#elif BROKEN_gate == 42 /* a refused format leaves no operation table */
    for (uint32_t *t = tables; row && t < tables + SIEVELAST_RECORD_TABLES; t += TABLE_NUMBERS)
        memset(t + MASKS_AT, 0, (TABLE_NUMBERS - MASKS_AT) * sizeof *t);
#endif
    (void)kept;
    return row;
}

/* The real drive, or one that judges otherwise. */
static struct sievelast_answered answer_of(GATE_PARAMETERS)
{
#if BROKEN_gate == 21 /* row 1 asks for the step */
    struct sievelast_answered unsound = {1, 0};
    return off_step(tables) ? unsound : __real_sievelast_gate_parts(GATE_PASSED);
#elif BROKEN_gate > 44
    return misgrouped(GATE_PASSED);
#elif BROKEN_gate > 30
    return mistabled(GATE_PASSED);
#elif BROKEN_gate > 21
    return misplaced(GATE_PASSED);
#else
    return __real_sievelast_gate_parts(GATE_PASSED);
#endif
}

struct sievelast_answered __wrap_sievelast_gate_parts(GATE_PARAMETERS)
{
    uint64_t held[SIEVELAST_MEMORIES], mark = *highwater;
    uint32_t before[SIEVELAST_RECORD_ENTRIES];
    memcpy(held, lengths, sizeof held);
    memcpy(before, entries, sizeof before);
    struct sievelast_answered a = answer_of(GATE_PASSED);
#if BROKEN_gate == 3 /* one byte past the reply space */
    if (a.row == 0)
        spoil(reply + reply_len);
#elif BROKEN_gate == 4 /* one byte before the medium */
    if (a.row == 0)
        spoil(medium - 1);
#elif BROKEN_gate == 5 /* one number past a part of the record */
    if (a.row == 0)
        spoil(times + SIEVELAST_RECORD_PLACES);
#elif BROKEN_gate == 6 /* one number before a part of the record */
    if (a.row == 0)
        spoil(tables - 1);
#elif BROKEN_gate == 7 /* the frame written */
    if (a.row == 0)
        spoil(frame);
#elif BROKEN_gate == 8 /* a refusal writes the reply */
    if (a.row && reply_len)
        reply[reply_len - 1] = 0;
#elif BROKEN_gate == 9 /* a refusal writes the medium */
    if (a.row > 8 && medium_len)
        medium[medium_len - 1] ^= 1;
#elif BROKEN_gate == 10 /* row 1 moves the mark */
    if (a.row == 1 && clock > mark)
        *highwater = clock;
#elif BROKEN_gate == 11 /* the mark falls back */
    if (a.row)
        *highwater = clock;
#elif BROKEN_gate == 12 /* the nonce is not entered */
    if (a.row == 0)
        memcpy(lengths, held, sizeof held);
#elif BROKEN_gate == 13 /* one row for another */
    if (a.row == 17)
        a.row = 16;
#elif BROKEN_gate == 14 /* a length made up */
    if (a.row == 0 && a.length < reply_len)
        a.length++;
#elif BROKEN_gate == 15 /* a wrong digest of the reply */
    if (a.row == 0 && a.length >= SIEVELAST_REPLY_HEAD_BYTES + SIEVELAST_DIGEST_BYTES)
        reply[a.length - 1] ^= 1;
#elif BROKEN_gate == 16 /* a grant changes another partition's table */
    if (a.row == 0)
        tables[SIEVELAST_RECORD_TABLES - 1] ^= 1;
#elif BROKEN_gate == 17 /* the nonce has no object */
    if (a.row == 0 && other_object(frame, lengths, entries, times))
        a.row = 12, a.length = 0;
    else if (a.row == 0)
        entry_at(entries, entered(frame, lengths))[ENTRY_OBJECT] = 0;
#elif BROKEN_gate == 18 /* the object is entered and not compared */
    if (a.row == 0 && other_object(frame, lengths, entries, times))
        a.row = 12, a.length = 0;
#elif BROKEN_gate == 19 /* the object is compared and not entered */
    if (a.row == 0)
        entry_at(entries, entered(frame, lengths))[ENTRY_OBJECT] = 0;
#elif BROKEN_gate == 20 /* an entry that moves leaves its object behind */
    objects_stay(before, entries, held, lengths);
#endif
    (void)mark, (void)before;
    return a;
}
