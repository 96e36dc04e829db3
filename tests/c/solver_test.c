/* The exported builder and reply check: grants against an independent HMAC, every refusal, and the edges of the C boundary. */
#include "expect.h"
#include "hmac.h"
#include "sievelast.h"

static void put(uint8_t *at, int width, uint64_t x)
{
    for (int i = 0; i < width; i++)
        at[i] = (uint8_t)(x >> 8 * (width - 1 - i));
}

static uint8_t credential[36], request[32], key[32], payload[64];
static size_t request_len; /* 28, or 32 for a group's */

enum { TABLE = 21 }; /* bytes that operation 8 loads */

/* Object 5 of partition 1 under working key 0, every right, bytes 0 to 4096. */
static void a_credential(int least)
{
    memset(credential, 0, sizeof credential);
    put(credential, 2, 0x4c43);
    credential[2] = 1;
    put(credential + 4, 4, 5);
    put(credential + 8, 4, 7);
    put(credential + 12, 2, 0x7f);
    credential[14] = (uint8_t)least;
    put(credential + 20, 4, 4096);
    put(credential + 24, 8, 1234567);
    put(credential + 32, 4, 9);
}

static void a_request(int operation, int level, uint32_t a, uint32_t b, uint32_t n)
{
    memset(request, 0, sizeof request);
    put(request, 2, 0x4c52);
    request[2] = (uint8_t)operation;
    request[3] = (uint8_t)level;
    put(request + 4, 8, 1000);
    put(request + 12, 4, 3);
    put(request + 16, 4, a);
    put(request + 20, 4, b);
    put(request + 24, 4, n);
    request_len = 28;
}

/* The same through a group, whose credential has rights bit 7: another mark, and the member's number at the end. */
static void a_group_credential(int least)
{
    a_credential(least);
    credential[13] |= 0x80;
}

static void a_group_request(int operation, int level, uint32_t a, uint32_t b, uint32_t n, uint32_t member)
{
    a_request(operation, level, a, b, n);
    put(request, 2, 0x4c47);
    put(request + 28, 4, member);
    request_len = 32;
}

/* The partition key's credential of partition 1, for operations 7 and 8. */
static void a_partition_credential(void)
{
    a_credential(0);
    credential[3] = 2;
    put(credential + 4, 4, 0);
    put(credential + 8, 4, 0);
}

static struct sievelast_built build(uint8_t *space, size_t space_len, size_t n)
{
    return sievelast_build(credential, 36, request, request_len, payload, n, key, 32, space, space_len);
}

/* A granted build: the records, the data, the digest; and no byte after them. */
static void granted(size_t n)
{
    uint8_t space[300], covered[300], digest[32];
    size_t records = 36 + request_len, all = records + n + 32;
    memset(space, 0xee, sizeof space);
    struct sievelast_built r = build(space, sizeof space, n);
    EXPECT(r.row == 0);
    EXPECT(r.length == all);
    EXPECT(!memcmp(space, credential, 36));
    EXPECT(!memcmp(space + 36, request, request_len));
    EXPECT(!memcmp(space + records, payload, n));
    memcpy(covered, space, records + n);
    test_hmac(key, 32, covered, request[3] ? records + n : records, digest);
    EXPECT(!memcmp(space + records + n, digest, 32));
    for (size_t i = all; i < sizeof space; i++)
        EXPECT(space[i] == 0xee);
    /* the space may be exactly as long, and not a byte shorter */
    EXPECT(build(space, all, n).row == 0);
    memset(space, 0xee, sizeof space);
    for (size_t shorter = all - 1; shorter + 8 >= all; shorter--) {
        r = build(space, shorter, n);
        EXPECT(r.row == 29 && r.length == 0);
    }
    for (size_t i = 0; i < sizeof space; i++)
        EXPECT(space[i] == 0xee);
}

static void grant(int operation, int level, uint32_t a, uint32_t b, size_t n)
{
    a_request(operation, level, a, b, (uint32_t)n);
    granted(n);
}

/* A refused build leaves the space alone. */
static void refuse(uint64_t row, size_t credential_len, size_t length, size_t n, size_t key_len)
{
    uint8_t space[300];
    memset(space, 0xee, sizeof space);
    struct sievelast_built r = sievelast_build(credential, credential_len, request, length, payload, n, key, key_len, space, sizeof space);
    EXPECT(r.row == row && r.length == 0);
    for (size_t i = 0; i < sizeof space; i++)
        EXPECT(space[i] == 0xee);
    /* the reply check refuses the same records by the same row, where their n is the data's length */
    struct sievelast_checked c = sievelast_check(credential, credential_len, request, length, key, key_len, space, 8);
    if (n == request[27])
        EXPECT(c.row == row && c.start == 0 && c.length == 0);
}

static void builds(void)
{
    a_credential(0);
    grant(1, 0, 0, 16, 0);
    grant(1, 2, 8, 0, 0);
    grant(2, 0, 4, 10, 10);
    grant(2, 1, 4, 64, 64);
    grant(2, 2, 0, 0, 0);
    grant(3, 2, 0, 0, 0);
    grant(4, 1, 0, 0, 0);
    grant(6, 0, 0, 0, 0);
    put(credential + 4, 4, 0);
    grant(5, 0, 7, 100, 0);
    a_partition_credential();
    grant(7, 1, 1, 0, 16);
    grant(8, 1, 0, 0, TABLE);
    grant(8, 2, 0, 0, TABLE);

    a_credential(0);
    a_request(1, 0, 0, 16, 0);
    refuse(26, 36, 28, 0, 31);
    refuse(26, 35, 28, 0, 0);
    refuse(28, 35, 28, 0, 32);
    refuse(28, 36, 27, 0, 32);
    refuse(28, 0, 0, 0, 32);
    refuse(28, 36, 28, 1, 32);
    credential[1] ^= 1, refuse(28, 36, 28, 0, 32), credential[1] ^= 1;
    request[0] ^= 1, refuse(28, 36, 28, 0, 32), request[0] ^= 1;
    credential[2] = 4, refuse(28, 36, 28, 0, 32), credential[2] = 1;
    credential[3] = 5, refuse(28, 36, 28, 0, 32), credential[3] = 3, refuse(28, 36, 28, 0, 32), credential[3] = 0;
    credential[13] |= 0x80, refuse(28, 36, 28, 0, 32), credential[13] &= 0x7f;
    credential[14] = 3, refuse(28, 36, 28, 0, 32), credential[14] = 0;
    credential[15] = 1, refuse(28, 36, 28, 0, 32), credential[15] = 0;
    request[2] = 0, refuse(28, 36, 28, 0, 32), request[2] = 8, refuse(28, 36, 28, 0, 32);
    request[2] = 9, refuse(28, 36, 28, 0, 32), request[2] = 1;
    request[3] = 3, refuse(28, 36, 28, 0, 32), request[3] = 0;
    a_request(2, 0, 0, 11, 10), refuse(28, 36, 28, 10, 32);
    a_request(3, 0, 1, 0, 0), refuse(28, 36, 28, 0, 32);
    a_request(5, 0, 7, 100, 0), refuse(28, 36, 28, 0, 32);
    a_credential(1), a_request(1, 0, 0, 16, 0), refuse(28, 36, 28, 0, 32);
}

/* The client end knows no partition's table: of operation 8 it refuses what document 01's rule refuses of 7, and no table. */
static void tables(void)
{
    a_partition_credential();
    a_request(8, 0, 0, 0, TABLE), refuse(28, 36, 28, TABLE, 32); /* the level */
    a_request(8, 1, 0, 0, TABLE - 1), refuse(28, 36, 28, TABLE - 1, 32);
    a_request(8, 1, 0, 0, TABLE + 1), refuse(28, 36, 28, TABLE + 1, 32);
    a_request(8, 1, 0, 0, TABLE), refuse(28, 36, 28, TABLE - 1, 32);
    a_request(8, 1, 1, 0, TABLE), refuse(28, 36, 28, TABLE, 32);
    a_request(8, 1, 0, 1, TABLE), refuse(28, 36, 28, TABLE, 32);
    a_request(8, 1, 0, 0, TABLE);
    credential[14] = 2, refuse(28, 36, 28, TABLE, 32), credential[14] = 0;
    put(credential + 4, 4, 1), refuse(28, 36, 28, TABLE, 32), put(credential + 4, 4, 0);
    put(credential + 8, 4, 1), refuse(28, 36, 28, TABLE, 32), put(credential + 8, 4, 0);
    credential[3] = 0, refuse(28, 36, 28, TABLE, 32);
    credential[3] = 1, refuse(28, 36, 28, TABLE, 32);
    credential[2] = 0;
    credential[3] = 3, refuse(28, 36, 28, TABLE, 32);
    credential[3] = 4, refuse(28, 36, 28, TABLE, 32);
}

/* ---- groups */
static void group_builds(void)
{
    static const uint32_t members[] = {0, 1, 5, 0x01020304, UINT32_MAX}; /* any number: the drive alone knows the list */
    for (size_t i = 0; i < sizeof members / sizeof *members; i++)
        for (int level = 0; level <= 2; level++) {
            a_group_credential(level);
            a_group_request(1, level, 3, 16, 0, members[i]), granted(0);
            a_group_request(2, level, 4, 10, 10, members[i]), granted(10);
            a_group_request(2, level, 0, 0, 0, members[i]), granted(0);
            a_group_request(3, level, 0, 0, 0, members[i]), granted(0);
        }
    a_group_credential(0);
    for (uint32_t n = 0; n <= 64; n++)
        a_group_request(2, 1, 0, n, n, 9), granted(n);
}

/* Each line of row 6 that speaks of groups, and others that hold of a group's frame as of any. */
static void group_refusals(void)
{
    a_group_credential(0);
    for (int op = 4; op <= 8; op++) { /* operations over 3, which are good without a group */
        uint32_t creates = op == 5, n = op == 7 ? 16 : op == 8 ? TABLE : 0;
        a_group_credential(0);
        if (op >= 7)
            a_partition_credential(), credential[13] |= 0x80;
        put(credential + 4, 4, op == 4 || op == 6 ? 5 : 0);
        a_group_request(op, 1, creates, creates, n, 9), refuse(28, 36, 32, n, 32);
        a_request(op, 1, creates, creates, n), refuse(28, 36, 28, n, 32);
        credential[13] &= 0x7f, granted(n);
    }
    a_group_credential(0);
    a_group_request(9, 0, 0, 0, 0, 9), refuse(28, 36, 32, 0, 32);
    for (int op = 1; op <= 3; op++) {
        a_group_request(op, 0, 0, 0, 0, 9);
        put(credential + 4, 4, 0), refuse(28, 36, 32, 0, 32), put(credential + 4, 4, 5); /* object 0 */
        credential[3] = 2, refuse(28, 36, 32, 0, 32), credential[3] = 0;
        credential[12] = 1, refuse(28, 36, 32, 0, 32), credential[12] = 0;
        credential[14] = 1, refuse(28, 36, 32, 0, 32), credential[14] = 0;
        refuse(26, 36, 32, 0, 31), refuse(28, 35, 32, 0, 32), refuse(28, 37, 32, 0, 32), refuse(28, 36, 32, 1, 32);
        granted(0);
    }
    a_group_request(3, 0, 1, 0, 0, 9), refuse(28, 36, 32, 0, 32);
    a_group_request(3, 0, 0, 1, 0, 9), refuse(28, 36, 32, 0, 32);
    a_group_request(2, 0, 0, 4, 3, 9), refuse(28, 36, 32, 3, 32);
}

/* Row 28 and the forms: every length of the request, either mark, every value of the rights. Two of them go together. */
static void group_forms(void)
{
    uint8_t space[300], reply[] = {0x4c, 0x41, 3, 0, 0, 0, 0, 8, 0, 0, 0, 1, 0, 0, 0, 2}, longer[40] = {0};
    for (unsigned rights = 0; rights <= 0x200; rights++)
        for (unsigned mark = 0x4c40; mark <= 0x4c60; mark++)
            for (size_t length = rights % 0x7f ? 27 : 0; length <= (rights % 0x7f ? 33 : sizeof longer); length++) {
                a_credential(0);
                a_group_request(3, 0, 0, 0, 0, 0);
                put(request, 2, mark);
                put(credential + 12, 2, rights);
                memcpy(longer, request, sizeof request);
                int plain = mark == 0x4c52 && length == 28 && rights < 0x80, group = mark == 0x4c47 && length == 32 && rights >> 7 == 1;
                struct sievelast_built b = sievelast_build(credential, 36, longer, length, NULL, 0, key, 32, space, sizeof space);
                struct sievelast_checked c = sievelast_check(credential, 36, longer, length, key, 32, reply, sizeof reply);
                EXPECT(b.row == (plain || group ? 0 : 28) && b.length == (plain ? 96 : group ? 100 : 0));
                EXPECT(c.row == b.row && c.length == (plain || group ? 8 : 0));
            }
}

static struct sievelast_checked check(const uint8_t *reply, size_t reply_len)
{
    return sievelast_check(credential, 36, request, request_len, key, 32, reply, reply_len);
}

static int wrong(const uint8_t *reply, size_t reply_len)
{
    struct sievelast_checked c = check(reply, reply_len);
    return c.row == 30 && c.start == 0 && c.length == 0;
}

/* A reply to the present request with n bytes of result. */
static void a_reply(uint8_t *reply, size_t n)
{
    uint8_t covered[300];
    put(reply, 2, 0x4c41);
    reply[2] = request[2];
    reply[3] = request[3];
    put(reply + 4, 4, n);
    for (size_t i = 0; i < n; i++)
        reply[8 + i] = (uint8_t)(i * 7 + 1);
    memcpy(covered, credential, 36);
    memcpy(covered + 36, request, request_len);
    memcpy(covered + 36 + request_len, reply, 8 + n);
    test_hmac(key, 32, covered, 36 + request_len + 8 + n, reply + 8 + n);
}

/* It is granted, and every damage to it refused. */
static void replied(size_t n)
{
    uint8_t reply[200], level = request[3];
    a_reply(reply, n);
    size_t all = 8 + n + (level == 2 ? 32 : 0);
    struct sievelast_checked c = check(reply, all);
    EXPECT(c.row == 0 && c.start == 8 && c.length == n);
    EXPECT(wrong(reply, all - 1));
    EXPECT(wrong(reply, all + 1));
    EXPECT(wrong(reply, 0));
    for (size_t i = 0; i < all; i++) {
        int covers = i < 8 || level == 2;
        reply[i] ^= 0x10;
        EXPECT(covers ? wrong(reply, all) : check(reply, all).row == 0);
        reply[i] ^= 0x10;
    }
    /* the digest is the credential key's */
    key[31] ^= 1;
    EXPECT(level == 2 ? wrong(reply, all) : check(reply, all).row == 0);
    key[31] ^= 1;
}

static void reply_of(int operation, int level, uint32_t a, uint32_t b, size_t n)
{
    a_request(operation, level, a, b, operation == 8 ? TABLE : operation == 7 ? 16 : 0);
    replied(n);
}

/* Replies to a group's frames. At level 2 the digest is one of all 32 bytes of the request: of another member it is another, and a reply to
 * the same request without a group is none to this one. */
static void group_replies(void)
{
    uint8_t reply[200];
    for (int level = 0; level <= 2; level++) {
        a_group_credential(0);
        a_group_request(1, level, 3, 20, 0, 9), replied(20);
        a_group_request(1, level, 3, 0, 0, 9), replied(0);
        a_group_request(2, level, 3, 4, 4, 9), replied(0);
        a_group_request(3, level, 0, 0, 0, UINT32_MAX), replied(8);
        a_reply(reply, 8);
        for (size_t i = 28; i < 32; i++) {
            request[i] ^= 1;
            EXPECT(level == 2 ? wrong(reply, 48) : check(reply, 16).row == 0);
            request[i] ^= 1;
        }
    }
    a_request(3, 2, 0, 0, 0), a_reply(reply, 8);
    a_group_request(3, 2, 0, 0, 0, 9);
    EXPECT(wrong(reply, 48));
    a_group_request(1, 0, 0, 4194305, 0, 9);
    EXPECT(check(reply, 8).row == 28);
    a_group_request(1, 0, 0, 4194304, 0, 9);
    EXPECT(check(reply, 8).row == 30);
}

static void replies(void)
{
    a_credential(0);
    reply_of(1, 0, 3, 20, 20);
    reply_of(1, 2, 3, 20, 20);
    reply_of(1, 2, 3, 0, 0);
    reply_of(3, 1, 0, 0, 8);
    reply_of(3, 2, 0, 0, 8);
    reply_of(4, 2, 0, 0, 4);
    reply_of(6, 0, 0, 0, 0);
    a_partition_credential();
    reply_of(7, 2, 1, 0, 0);
    reply_of(8, 1, 0, 0, 0);
    reply_of(8, 2, 0, 0, 0);
    uint8_t none[8] = {0};
    a_credential(0);
    a_request(1, 0, 0, 4194305, 0);
    EXPECT(check(none, 8).row == 28);
    a_request(1, 0, 0, 4194304, 0);
    EXPECT(check(none, 8).row == 30);
    EXPECT(sievelast_check(credential, 36, request, 28, key, 33, none, 8).row == 26);
    EXPECT(sievelast_check(credential, 36, request, 29, key, 32, none, 8).row == 28);
}

/* NULL with length 0, wherever a length can be 0. */
static void edges(void)
{
    uint8_t space[100];
    a_group_credential(0);
    a_group_request(1, 0, 0, 16, 0, 9);
    EXPECT(sievelast_build(credential, 36, request, 32, NULL, 0, key, 32, space, 100).row == 0);
    EXPECT(sievelast_build(credential, 36, request, 32, NULL, 0, key, 32, NULL, 0).row == 29);
    EXPECT(sievelast_check(credential, 36, request, 32, key, 32, NULL, 0).row == 30);
    a_credential(0);
    a_request(1, 0, 0, 16, 0);
    EXPECT(sievelast_build(credential, 36, request, 28, NULL, 0, key, 32, space, 96).row == 0);
    EXPECT(sievelast_build(NULL, 0, NULL, 0, NULL, 0, NULL, 0, NULL, 0).row == 26);
    EXPECT(sievelast_build(NULL, 0, NULL, 0, NULL, 0, key, 32, NULL, 0).row == 28);
    EXPECT(sievelast_build(credential, 36, request, 28, NULL, 0, key, 32, NULL, 0).row == 29);
    EXPECT(sievelast_check(NULL, 0, NULL, 0, NULL, 0, NULL, 0).row == 26);
    EXPECT(sievelast_check(credential, 36, request, 28, key, 32, NULL, 0).row == 30);
    EXPECT(sizeof(struct sievelast_built) == 16 && sizeof(struct sievelast_checked) == 24);
}

int main(void)
{
    for (int i = 0; i < 32; i++)
        key[i] = (uint8_t)(200 + 3 * i);
    for (int i = 0; i < 64; i++)
        payload[i] = (uint8_t)(i * i);
    builds();
    tables();
    group_builds();
    group_refusals();
    group_forms();
    replies();
    group_replies();
    edges();
    return expected("solver");
}
