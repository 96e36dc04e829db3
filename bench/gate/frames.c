/* Writes an input for gate_bench: keys set, objects created, memories filled, and then the frames to be measured.
 *
 *     frames FILE KIND SIZE LEVEL STATE FRAMES OBJECT
 *
 * KIND: look, read, write (of SIZE bytes), 2 to 7 (a look made one that this row refuses), 9 (a look, or with SIZE a write,
 * whose digest differs); groupN (a read through a group that lists N numbers, object 1 of the partition), ownN (the same read by
 * the object's own credential, beside that group). STATE:
 *     empty   one object; T = mark - 5,000 and the mark rises by 1 ms every 60 frames, so that the memory used goes from no
 *             entry to 60 and is then empty again
 *     full    16 objects in each partition; 63 entries that stay in each other memory and 3 in the one used, which goes from
 *             3 to 63
 *     steady  one object; the mark rises with each frame, each finds 63 entries in its memory and one more outlived
 * OBJECT: the size of the object that is read and written; the others have 512 bytes. Prints what gate_bench is to print: the
 * grants and the refusals. */
#include "records.h"
#include <inttypes.h>
#include <openssl/evp.h>
#include <openssl/hmac.h>

enum { STAY = 63, STEP = 60, OBJECTS = 16, SMALL = 512, WINDOW = 5000, GROUP = 1, RIGHTS = 0x7f, GROUP_RIGHT = 0x80 };

static FILE *out;
static uint64_t mark = 100000;
static uint64_t granted, refused;
static uint32_t counter;
static uint8_t frame[CREDENTIAL + GROUP_REQUEST + MOST_DATA + DIGEST + 1];
static uint8_t bytes[MOST_DATA];        /* what is written, made up once */
static uint8_t work_keys[4][DIGEST];

static void hmac(const uint8_t *key, const uint8_t *message, size_t n, uint8_t *digest)
{
    if (!HMAC(EVP_sha256(), key, DIGEST, message, n, digest, NULL))
        fail("HMAC");
}

/* A record of the frame. */
static void put(const uint8_t *f, size_t n, int is_granted)
{
    uint8_t head[HEAD] = {0x4c, 0x49};
    put_number(head + 2, 8, mark);
    put_number(head + 10, 4, n);
    if (fwrite(head, 1, HEAD, out) != HEAD || fwrite(f, 1, n, out) != n)
        fail("write");
    *(is_granted ? &granted : &refused) += 1;
}

/* ---- frames */

static void put_credential(uint8_t *c, int partition, int slot, uint32_t object, uint32_t version, int rights)
{
    memset(c, 0, CREDENTIAL);
    put_number(c, 2, 0x4c43);
    c[2] = (uint8_t)partition;
    c[3] = (uint8_t)slot;
    put_number(c + 4, 4, object);
    put_number(c + 8, 4, version);
    put_number(c + 12, 2, (uint64_t)rights);
    put_number(c + 20, 4, UINT32_MAX);
    put_number(c + 24, 8, UINT64_MAX);
    put_number(c + 32, 4, 7);
}

/* The request to the frame; for a member of a group, from 1, a group's request. Returns where the data starts. */
static size_t put_request(int operation, int level, uint64_t t, uint32_t a, uint32_t b, size_t n, uint32_t member)
{
    uint8_t *r = frame + CREDENTIAL;
    put_number(r, 2, member ? 0x4c47 : 0x4c52);
    r[2] = (uint8_t)operation;
    r[3] = (uint8_t)level;
    put_number(r + 4, 8, t);
    put_number(r + 12, 4, counter++);
    put_number(r + 16, 4, a);
    put_number(r + 20, 4, b);
    put_number(r + 24, 4, n);
    if (!member)
        return CREDENTIAL + REQUEST;
    put_number(r + REQUEST, 4, member);
    return CREDENTIAL + GROUP_REQUEST;
}

/* The digest of the frame whose credential and request are there up to start, and then n data bytes; its length. */
static size_t finish(const uint8_t *credential_key, int level, size_t start, size_t n)
{
    size_t end = start + n;
    hmac(credential_key, frame, level ? end : start, frame + end);
    return end + DIGEST;
}

static void set_key(const uint8_t *key, int partition, int slot, uint64_t t, uint32_t a, uint8_t *made)
{
    uint8_t credential_key[DIGEST];
    put_credential(frame, partition, slot, 0, 0, RIGHTS);
    size_t start = put_request(7, 1, t, a, 0, 16, 0);
    memset(frame + start, partition + 1, 16);
    hmac(key, frame, CREDENTIAL, credential_key);
    hmac(key, frame + CREDENTIAL, REQUEST + 16, made);
    put(frame, finish(credential_key, 1, start, 16), 1);
}

/* An operation from 1 to 6 on a partition or an object, under its black key; a write's data is in the frame already. */
static void ask(int partition, uint32_t object, uint32_t version, int operation, uint64_t t, uint32_t a, uint32_t b)
{
    uint8_t credential_key[DIGEST];
    size_t n = operation == 2 ? b : 0;
    put_credential(frame, partition, 0, object, version, RIGHTS);
    size_t start = put_request(operation, 0, t, a, b, n, 0);
    hmac(work_keys[partition], frame, CREDENTIAL, credential_key);
    put(frame, finish(credential_key, 0, start, n), 1);
}

/* ---- the drive before the frames that are measured */

static void set_keys(void)
{
    uint8_t drive_key[DIGEST], key[DIGEST];
    memset(drive_key, 1, DIGEST);
    for (int p = 0; p < 4; p++) {
        set_key(drive_key, 0, 3, mark, (uint32_t)p, key);
        set_key(key, p, 2, mark, 0, work_keys[p]);
    }
}

/* The last object of partition 0 is the one that is measured; its number, which is also how many the partition has. Where a list
 * is asked for the first one is a group, of so many numbers from the last object's on. */
static uint32_t make_objects(int full, uint32_t object, uint32_t list)
{
    uint32_t most = full ? OBJECTS : list ? 2 : 1;
    for (int p = 0; p < (full ? 4 : 1); p++)
        for (uint32_t k = 1; k <= most; k++)
            ask(p, 0, 1, 5, mark, k, p ? SMALL : k == most ? object : k == GROUP && list ? 4 * list : SMALL);
    for (uint32_t i = 0; i < list; i++)
        put_number(frame + CREDENTIAL + REQUEST + 4 * i, 4, most + i);
    if (list)
        ask(0, GROUP, GROUP + 1, 2, mark, 0, 4 * list);
    return most;
}

static void fill_memories(void)
{
    uint8_t drive_key[DIGEST], key[DIGEST];
    memset(drive_key, 1, DIGEST);
    for (int i = 0; i < STAY; i++) {
        for (int p = i < STAY - STEP ? 0 : 1; p < 4; p++)
            ask(p, 0, 1, 3, mark + WINDOW, 0, 0);
        set_key(drive_key, 0, 3, mark + WINDOW, 3, key);
    }
}

/* ---- the frames that are measured */

enum kind { LOOK, READ, WRITE, JUNK };

struct plan {
    enum kind kind;
    int row;                            /* that refuses each, or 0 */
    size_t size;
    int level;
    int steady;
    uint32_t object;                    /* its size */
    uint32_t list;                      /* how many numbers the group has, 0 where there is none */
    int is_grouped;                     /* whether frames go through it */
};

/* A look made one that a row from 2 to 7 refuses; its length. */
static size_t spoil(int row, size_t n)
{
    uint8_t *r = frame + CREDENTIAL;
    switch (row) {
    case 2: return n - 1;
    case 3: r[0] = 0; return n;
    case 4: r[3] = 3; return n;
    case 5: return n + 1;
    case 6: put_number(r + 16, 4, 1); return n;
    case 7: frame[14] = 1; return n;
    case 9: frame[n - 1] ^= 1; return n;
    default: fail("row"); return 0;
    }
}

static void put_measured(const struct plan *p, uint32_t i, uint32_t member, const uint8_t *credential, const uint8_t *credential_key)
{
    static const int operations[] = {[LOOK] = 3, [READ] = 1, [WRITE] = 2, [JUNK] = 3};
    uint32_t b = p->kind == READ || p->kind == WRITE ? (uint32_t)p->size : 0;
    uint32_t a = b ? (uint32_t)((uint64_t)i * b % (p->object - b + 1)) : 0;
    size_t n = p->kind == WRITE ? b : 0;
    uint64_t t = mark - WINDOW + (p->steady ? STAY : 0);
    memcpy(frame, credential, CREDENTIAL);
    size_t start = put_request(operations[p->kind], p->level, t, a, b, n, member);
    memcpy(frame + start, bytes, n);
    size_t size = finish(credential_key, p->level, start, n);
    put(frame, p->row ? spoil(p->row, size) : size, !p->row);
}

static void put_all(const struct plan *p, uint32_t frames, uint32_t object)
{
    uint8_t credential[CREDENTIAL], credential_key[DIGEST];
    uint32_t step = p->steady ? 1 : STEP;
    uint32_t named = p->is_grouped ? GROUP : object, member = p->is_grouped ? object : 0;
    put_credential(credential, 0, 0, named, named + 1, p->is_grouped ? RIGHTS | GROUP_RIGHT : RIGHTS);
    hmac(work_keys[0], credential, CREDENTIAL, credential_key);
    for (uint32_t i = 0; i < frames; i++) {
        if (p->kind != JUNK && i % step == 0)
            mark++;
        put_measured(p, i, member, credential, credential_key);
    }
}

static struct plan plan_of(char **words)
{
    struct plan p = {.size = (size_t)atol(words[2]), .level = atoi(words[3]), .object = (uint32_t)atol(words[6])};
    p.steady = !strcmp(words[4], "steady");
    p.row = atoi(words[1]);
    if (p.row)
        p.kind = p.row == 9 ? p.size ? WRITE : LOOK : JUNK;
    else
        p.kind = !strcmp(words[1], "look") ? LOOK : !strcmp(words[1], "write") ? WRITE : READ;
    p.is_grouped = sscanf(words[1], "group%" SCNu32, &p.list) == 1;
    if (!p.is_grouped && sscanf(words[1], "own%" SCNu32, &p.list) != 1)
        p.list = 0;
    return p;
}

int main(int count, char **words)
{
    if (count != 8)
        fail("frames FILE KIND SIZE LEVEL STATE FRAMES OBJECT");
    words++;
    struct plan p = plan_of(words);
    int full = !strcmp(words[4], "full");
    out = fopen(words[0], "wb");
    if (!out)
        fail("no file");
    for (size_t i = 0; i < sizeof bytes; i++)
        bytes[i] = (uint8_t)(i * 2654435761u >> 13);
    set_keys();
    uint32_t object = make_objects(full, p.object, p.list);
    mark += 100000;                     /* every entry so far is outlived */
    if (full)
        fill_memories();
    put_all(&p, (uint32_t)atol(words[5]), object);
    if (fclose(out))
        fail("write");
    printf("%llu granted, %llu refused\n", (unsigned long long)granted, (unsigned long long)refused);
    return 0;
}
