/* Plays a trace of formats, objects and needs put into a table, and calls against the drive as C has it, and prints for each record a
 * line with what it left behind: row, reply length, the whole reply space, a digest of the medium and of the 8 bytes behind it.
 * tests/model/src/bin/library.rs has the layouts of all; crates/drive_replay does the same in Rattle.
 *
 *   tests/differential-library target/store_replay
 *
 * Medium, frame and reply space are lent at every offset from the machine's alignment in turn. A record that is none, or not
 * whole, ends the output with the line `cut` and the status 1. */
#include "hmac.h"
#include "lent.h"
#include "table.h"
#include <inttypes.h>

enum {
    FIRST_PART = 32,  /* of a record; tells its kind */
    SECOND_PART = 64, /* of a format */
    MASTER_AT = 16,
    KEY_AT = 56,
    KEY_LIMIT = 40,
    BEHIND = 8 /* bytes behind the medium that are filled and printed with it */
};

static struct sievelast_drive drive;
static struct lent medium; /* M bytes and those behind */
static uint8_t head[FIRST_PART + SECOND_PART];
static unsigned long records;

static uint64_t number(size_t at, int width)
{
    uint64_t x = 0;
    for (int i = 0; i < width; i++)
        x = x << 8 | head[at + i];
    return x;
}

static int cut(void)
{
    puts("cut");
    return 1;
}

static int read_all(uint8_t *to, size_t n) { return n == 0 || fread(to, 1, n, stdin) == n; }

static void put_hex(const uint8_t *bytes, size_t n)
{
    for (size_t i = 0; i < n; i++) {
        putchar("0123456789abcdef"[bytes[i] >> 4]);
        putchar("0123456789abcdef"[bytes[i] & 15]);
    }
}

static void put_line(uint64_t row, uint64_t length, const uint8_t *reply, size_t reply_len)
{
    uint8_t digest[SIEVELAST_DIGEST_BYTES];
    printf("%" PRIu64 " %" PRIu64 " ", row, length);
    put_hex(reply, reply_len);
    fputs(reply_len ? " " : "- ", stdout);
    test_sha256(medium.bytes, medium.length, digest);
    put_hex(digest, sizeof digest);
    putchar('\n');
}

/* A format, whose first part is read. The medium is a new one, at the next offset. */
static int format(void)
{
    size_t m = number(4, 4), master_len = head[2], key_len = head[3];
    if (!read_all(head + FIRST_PART, SECOND_PART) || master_len > KEY_LIMIT || key_len > KEY_LIMIT)
        return cut();
    give_back(&medium);
    medium = lend(m + BEHIND, records % 8);
    memset(medium.bytes, head[1], medium.length);
    uint64_t row = sievelast_format(&drive, medium.bytes, m, (uint32_t)number(8, 4), head + MASTER_AT, master_len, head + KEY_AT,
                                    key_len);
    put_line(row, 0, NULL, 0);
    return 0;
}

/* An object that a partition has from now on, behind those that it has, with the last version given beside it. No call makes this: a
 * record may hold areas that no create would place. */
static int object(void)
{
    int partition = head[1];
    if (partition >= SIEVELAST_PARTITIONS || table_of(&drive, partition)[COUNT_AT] >= SIEVELAST_MOST_OBJECTS)
        return cut();
    uint32_t *t = table_of(&drive, partition);
    add_object(t, (uint32_t)number(4, 4), (uint32_t)number(8, 4), (uint32_t)number(12, 4), (uint32_t)number(16, 4));
    t[LAST_AT] = (uint32_t)number(20, 4);
    put_line(0, 0, NULL, 0);
    return 0;
}

/* What a partition's operation table has for an operation from now on, though no table that is loaded may have it. */
static int need(void)
{
    int partition = head[1], operation = head[2];
    struct need n = {(uint32_t)number(4, 4), (uint32_t)number(8, 4)};
    if (partition >= SIEVELAST_PARTITIONS || operation < 1 || operation > SIEVELAST_TABLE_OPERATIONS)
        return cut();
    put_need(table_of(&drive, partition), operation, n);
    put_line(0, 0, NULL, 0);
    return 0;
}

/* A call, whose first part is read. */
static int call(void)
{
    size_t lent_len = number(4, 4);
    struct lent frame = lend(number(16, 4), records % 8), reply = lend(number(20, 4), records / 8 % 8);
    int whole = lent_len <= medium.length && read_all(frame.bytes, frame.length);
    if (whole) {
        if (reply.length)
            memset(reply.bytes, head[1], reply.length);
        struct sievelast_answered a = sievelast_gate(&drive, medium.bytes, lent_len, frame.bytes, frame.length, number(8, 8),
                                                     reply.bytes, reply.length);
        put_line(a.row, a.length, reply.bytes, reply.length);
    }
    give_back(&frame);
    give_back(&reply);
    return whole ? 0 : cut();
}

int main(void)
{
    size_t got;
    int status = 0;
    medium = lend(BEHIND, 0);
    memset(medium.bytes, 0, medium.length);
    while (!status && (got = fread(head, 1, FIRST_PART, stdin)) != 0) {
        records++;
        if (got != FIRST_PART)
            status = cut();
        else if (head[0] == 'F')
            status = format();
        else if (head[0] == 'O')
            status = object();
        else if (head[0] == 'N')
            status = need();
        else
            status = head[0] == 'C' ? call() : cut();
    }
    give_back(&medium);
    return status;
}
