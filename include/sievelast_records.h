/* What both ends of Sievelast share: version, lengths, rows, operations, levels, slots, groups, and the two records of a frame as C
 * structs with their encoders and decoders. sievelast.h (client end) and sievelast_store.h (drive) include it.
 *
 * For C99, C++11 and later, on x86-64 with the System V calling convention (Linux): the archives are compiled for nothing else,
 * and need no library but C's memcpy and memset.
 *
 * For every call: arguments are pointers and lengths in bytes. A length of 0 allows any pointer, NULL too; bytes may have any
 * alignment. What is const is only read, and const arguments may overlap each other; what is not const overlaps no other argument.
 * Nothing is kept after a call returns, nothing is allocated, no errno, locale, file or signal is touched, and no call fails in any
 * other way than by its row. Calls that share nothing writable may run in as many threads as there are. A call needs under
 * SIEVELAST_STACK_BYTES of stack.
 */
#ifndef SIEVELAST_RECORDS_H
#define SIEVELAST_RECORDS_H

#include <stddef.h>
#include <stdint.h>

#if !defined(__x86_64__) || !defined(__LP64__)
#error "Sievelast's archives are for x86-64 with 64-bit pointers and the System V calling convention"
#endif

#ifdef __cplusplus
extern "C" {
#endif

/* ---- version: of these headers and the archives installed with them; SIEVELAST_VERSION is the three as text, with dots. The first
 * number rises with the form of a record, of a struct or of a call, the second with what a call answers or what is there to call. */
#define SIEVELAST_VERSION_MAJOR 3
#define SIEVELAST_VERSION_MINOR 1
#define SIEVELAST_VERSION_PATCH 0
#define SIEVELAST_TEXT_(x) #x
#define SIEVELAST_DOTTED_(x, y, z) SIEVELAST_TEXT_(x) "." SIEVELAST_TEXT_(y) "." SIEVELAST_TEXT_(z)
#define SIEVELAST_VERSION SIEVELAST_DOTTED_(SIEVELAST_VERSION_MAJOR, SIEVELAST_VERSION_MINOR, SIEVELAST_VERSION_PATCH)

/* ---- lengths, in bytes */
#define SIEVELAST_CREDENTIAL_BYTES 36
#define SIEVELAST_REQUEST_BYTES 28
#define SIEVELAST_GROUP_REQUEST_BYTES 32    /* a group's: the same, and the member's number */
#define SIEVELAST_DIGEST_BYTES 32
#define SIEVELAST_KEY_BYTES 32
#define SIEVELAST_SEED_BYTES 16             /* the data of operation 7 */
#define SIEVELAST_TABLE_BYTES 21            /* the data of operation 8: "operation tables" below */
#define SIEVELAST_REPLY_HEAD_BYTES 8        /* a reply before its result */
#define SIEVELAST_LOOK_BYTES 8              /* a look's result: size and version */
#define SIEVELAST_NEW_VERSION_BYTES 4       /* the result of a raise or a create */
#define SIEVELAST_MEMBER_BYTES 4            /* a number of a group's list: "groups" below */
#define SIEVELAST_LEAST_FRAME_BYTES 96      /* a frame without data: credential, request, digest; row 2 asks for these of every form */
#define SIEVELAST_GROUP_FRAME_BYTES 100     /* a group's frame without data: credential, request of 32 bytes, digest */
#define SIEVELAST_MOST_DATA_BYTES 1048576
#define SIEVELAST_MOST_FRAME_BYTES (SIEVELAST_GROUP_FRAME_BYTES + SIEVELAST_MOST_DATA_BYTES)
#define SIEVELAST_MOST_MEDIUM_BYTES 16777216
#define SIEVELAST_MOST_RESULT_BYTES 4194304 /* a quarter of the largest medium: no object is larger */
#define SIEVELAST_MOST_REPLY_BYTES (SIEVELAST_REPLY_HEAD_BYTES + SIEVELAST_MOST_RESULT_BYTES + SIEVELAST_DIGEST_BYTES)
#define SIEVELAST_MOST_HMAC_BYTES 16777216  /* a key's or a message's, for HMAC */
#define SIEVELAST_STACK_BYTES 16384         /* what a call may need of its thread's stack */

/* ---- other limits */
#define SIEVELAST_PARTITIONS 4
#define SIEVELAST_MOST_OBJECTS 16     /* of a partition */
#define SIEVELAST_EXTENT_STEP 16      /* a new object starts at a multiple of it, counted in bytes from its quarter's start */
#define SIEVELAST_MEMORIES 5          /* replay memories: one for each partition, a fifth for slots 3 and 4 */
#define SIEVELAST_MOST_ENTRIES 64     /* of a replay memory */
#define SIEVELAST_TABLE_OPERATIONS 7  /* of which an operation table speaks: 1 to 7 */
#define SIEVELAST_TIME_WINDOW 5000    /* how far a request's time may lie from the drive's mark, in milliseconds */

/* ---- operations, levels, slots, rights */
enum sievelast_operation {
    SIEVELAST_READ = 1,   /* b bytes of the object from offset a on */
    SIEVELAST_WRITE = 2,  /* the data, b bytes, into the object from offset a on */
    SIEVELAST_LOOK = 3,   /* the object's size and version, or for object 0 a quarter's size and the partition's version */
    SIEVELAST_RAISE = 4,  /* the next version, for the object, or for object 0 the partition */
    SIEVELAST_CREATE = 5, /* on object 0: object a, of b bytes; "rows" below has where it can lie */
    SIEVELAST_DELETE = 6, /* the object */
    SIEVELAST_SET_KEY = 7, /* under slot 4 the drive key, 3 partition a's key, 2 working key a; the data is a seed */
    SIEVELAST_LOAD_TABLE = 8 /* under slot 2, on object 0: the partition's operation table; the data is the table */
};

enum sievelast_level {
    SIEVELAST_LEVEL_RECORDS = 0, /* the digest covers credential and request */
    SIEVELAST_LEVEL_DATA = 1,    /* and the data */
    SIEVELAST_LEVEL_REPLY = 2    /* and the reply has a digest too */
};

enum sievelast_slot {
    SIEVELAST_SLOT_BLACK = 0, /* working key 0 */
    SIEVELAST_SLOT_GOLD = 1,  /* working key 1 */
    SIEVELAST_SLOT_PARTITION = 2, /* the partition key */
    SIEVELAST_SLOT_DRIVE = 3,     /* the drive key */
    SIEVELAST_SLOT_MASTER = 4     /* the master key */
};

/* The right that an operation needs where no table says otherwise: bit k - 1 for operation k, and for loading a table that of setting
 * a key. */
#define SIEVELAST_RIGHT(operation) ((uint16_t)(1u << ((operation) == SIEVELAST_LOAD_TABLE ? SIEVELAST_SET_KEY - 1 : (operation) - 1)))
#define SIEVELAST_EVERY_RIGHT ((uint16_t)0x7f)
#define SIEVELAST_GROUP_RIGHT ((uint16_t)0x80) /* marks a group credential: no operation needs it, and no table may ask for it */

/* ---- operation tables: what a mill asks of its frames. A partition's table has for each of operations 1 to 7 a mask of rights, every
 * one of which the credential must have (row 13), and a least level (row 7). At format it says SIEVELAST_RIGHT(k) and level 0 for
 * operation k, but level 1 for SIEVELAST_SET_KEY. SIEVELAST_LOAD_TABLE puts another in its place, until the next one: 21 bytes, for
 * each operation in order two of mask, the higher first, and one of level. No other operation changes it.
 *
 * A good table has every mask nonzero and within SIEVELAST_EVERY_RIGHT, levels of at most 2, and for SIEVELAST_SET_KEY of at least 1; a
 * frame with another is refused by row 31.
 *
 * Three things keep the table of the format, whatever was loaded, with SIEVELAST_LOAD_TABLE treated as SIEVELAST_SET_KEY: frames under
 * slots 3 and 4; SIEVELAST_LOAD_TABLE itself, so that who has the partition key can always load another; and the client end, which
 * knows no partition's table. So what a builder writes may be under the level that the drive asks for. */

/* ---- groups: one credential for a stack of logs. A group is an object whose bytes are a list of object numbers, the members, each in
 * SIEVELAST_MEMBER_BYTES, the highest byte first: the first is at least 1, each is greater than the one before it, and the object has no
 * other byte, so its size is a multiple of 4. Any object becomes a group by what is written into it; a new one, all zeros, is none yet. A
 * list may have numbers that no object has, and the group's own. Whoever may write the group's bytes says what its credentials open.
 *
 * A credential with SIEVELAST_GROUP_RIGHT among its rights is a group's. Its object is the group, in the partition of the members; its
 * version is the group's; its range counts in the member's bytes, whichever member it is. A frame under it has a request of the other form
 * (sievelast_group_request_encode), which names the member; no frame under another credential has one (row 6). It reads, writes or looks,
 * and does nothing else; the rights and the level for that are needed as of any frame.
 *
 * What is read, written or looked at is the member, so a look gives the member's size and version. A list is not followed: of a member
 * that is itself a group, its own bytes are reached. A group that lists itself can be written through itself: the frame is judged by the
 * list that it overwrites, the next one by the list that it left.
 *
 * The drive says no, after row 15: by SIEVELAST_ROW_GROUP_LIST where the group's bytes are no such list, by SIEVELAST_ROW_NOT_MEMBER where
 * it has not the member, by SIEVELAST_ROW_NO_MEMBER where the member does not exist; then by rows 16 and 17 for the member's bytes. It
 * reads the whole list for every group's frame that is signed, as row 32 speaks of every byte, and keeps nothing of it.
 *
 * What the file manager must do. Under a group the member's version is not asked for: a credential made for the log before is known by
 * the group's version only, and the file manager raises that too. So whoever raises, deletes or creates a log raises every group that
 * lists it, before the log changes hands; and a group that gets a new list is raised before it is written. examples/manager.c does both.
 *
 * The nonce's object is the group, not the member: under one holder, time and count, frames for two members are a repeat. */

/* ---- rows: why a call said no; 0 means granted. The lowest row that applies is the one returned, 32 to 34 standing between 15 and 16,
 * and 31 between 21 and 22. The gate answers rows 1 to 23 and 31 to 34, format 24 to 26, HMAC 27, issuer, builder and reply check 26 and
 * 28 to 30.
 *
 * SIEVELAST_ROW_NO_GAP can come although so many bytes are free, side by side: a new object needs them from a multiple of
 * SIEVELAST_EXTENT_STEP on. A quarter of 100 bytes has room for seven objects of one byte. */
enum sievelast_row {
    SIEVELAST_GRANTED = 0,
    SIEVELAST_ROW_RECORD_UNSOUND = 1,
    SIEVELAST_ROW_FRAME_SHORT = 2,
    SIEVELAST_ROW_MARKS = 3,
    SIEVELAST_ROW_FIELD = 4,
    SIEVELAST_ROW_LENGTHS = 5,
    SIEVELAST_ROW_OPERATION_MISFITS = 6,
    SIEVELAST_ROW_LEVEL_LOW = 7,
    SIEVELAST_ROW_KEY_UNSET = 8,
    SIEVELAST_ROW_DIGEST = 9,
    SIEVELAST_ROW_EXPIRED = 10,
    SIEVELAST_ROW_UNTIMELY = 11,
    SIEVELAST_ROW_REPLAYED = 12,
    SIEVELAST_ROW_RIGHT_MISSING = 13,
    SIEVELAST_ROW_NO_OBJECT = 14,
    SIEVELAST_ROW_VERSION = 15,
    SIEVELAST_ROW_RANGE = 16,
    SIEVELAST_ROW_PAST_SIZE = 17,
    SIEVELAST_ROW_NUMBER_TAKEN = 18,
    SIEVELAST_ROW_OBJECTS_FULL = 19,
    SIEVELAST_ROW_NO_GAP = 20,
    SIEVELAST_ROW_LAST_VERSION = 21,
    SIEVELAST_ROW_MEMORY_FULL = 22,
    SIEVELAST_ROW_REPLY_SPACE = 23,
    SIEVELAST_ROW_MEDIUM_LARGE = 24,
    SIEVELAST_ROW_FIRST_VERSION = 25,
    SIEVELAST_ROW_KEY_LENGTH = 26,
    SIEVELAST_ROW_DIGEST_INPUT = 27,
    SIEVELAST_ROW_RECORDS = 28,
    SIEVELAST_ROW_SPACE = 29,
    SIEVELAST_ROW_REPLY = 30,
    SIEVELAST_ROW_TABLE = 31,
    SIEVELAST_ROW_GROUP_LIST = 32,
    SIEVELAST_ROW_NOT_MEMBER = 33,
    SIEVELAST_ROW_NO_MEMBER = 34
};

#define SIEVELAST_LAST_ROW 34

/* A row's meaning in one line, without its number and without a full stop; "no such row" for any other number. */
static inline const char *sievelast_row_text(uint64_t row)
{
    static const char *const text[SIEVELAST_LAST_ROW + 1] = {
        "granted",
        "the drive record is not sound, or the medium is not as long as it says",
        "the frame is under 96 bytes",
        "the frame's credential or request does not start with its mark",
        "a field of the frame is outside its values",
        "the data length does not fit the operation, or the frame is not as long as its parts",
        "the operation does not fit the slot, the object, the version or its arguments, or the request's form the credential",
        "the level is under the credential's least, or under what the operation needs",
        "the key in the credential's slot was never set",
        "the frame's digest differs",
        "the credential has expired",
        "the request's time is over 5,000 ms from the drive's mark",
        "a frame with this nonce was granted before",
        "the credential has not every right that the operation needs",
        "the object does not exist in the partition",
        "the credential's version is not the present one",
        "the bytes to read or write are not within the credential's range",
        "the bytes to read or write end past the object",
        "the new object's number is taken",
        "the partition has 16 objects",
        "no gap of the partition has that many bytes from a multiple of 16 on",
        "the partition has given version 4,294,967,295",
        "the replay memory has 64 entries",
        "the reply space is too short",
        "the medium is over 16,777,216 bytes",
        "the first version is 0",
        "a key is not 32 bytes",
        "the key or message of a digest is over 16,777,216 bytes",
        "a record is wrong: its length, its mark, a field, or the length of data or result that it calls for",
        "the space lent is too short",
        "the reply is not the one that the request calls for",
        "the operation table is not good: a mask is 0 or has a bit over 6, or a level is over 2, or 0 for setting a key",
        "the group's bytes are no list of object numbers from 1 that rise strictly",
        "the member is not in the group's list",
        "the group's member does not exist in the partition",
    };
    return row <= SIEVELAST_LAST_ROW ? text[row] : "no such row";
}

/* ---- the records of a frame, without their marks and the credential's zero byte, which the encoders write */
struct sievelast_credential {
    uint64_t expiry;   /* milliseconds; the last at which the credential opens anything */
    uint32_t object;   /* 0 means the partition; with SIEVELAST_GROUP_RIGHT it is the group */
    uint32_t version;  /* the object's or partition's present one; 0 for operations 7 and 8 */
    uint32_t first;    /* the range of the object's, or the member's, bytes that may be read and written, from first .. */
    uint32_t end;      /* .. up to end, exclusive */
    uint32_t holder;   /* the client's number */
    uint16_t rights;   /* SIEVELAST_RIGHT of operations; which of them a frame needs, its partition's table says. And for a group
                          SIEVELAST_GROUP_RIGHT */
    uint8_t partition; /* 0 to 3; 0 for slots 3 and 4 */
    uint8_t slot;      /* enum sievelast_slot: which key the credential's own is made from */
    uint8_t least;     /* enum sievelast_level: the least that a frame may have */
};

/* A frame's nonce is slot, holder, time, count and the credential's object, which is the group where there is one. No replay memory
 * grants one twice. A group's request has the member's number beside these fields. */
struct sievelast_request {
    uint64_t time;     /* milliseconds, by the drive's clock */
    uint32_t count;
    uint32_t a;        /* as enum sievelast_operation says; 0 where it says nothing */
    uint32_t b;        /* the same */
    uint32_t data_len; /* b for a write, 16 for a new key, 21 for a table, else 0 */
    uint8_t operation; /* enum sievelast_operation */
    uint8_t level;     /* enum sievelast_level */
};

/* A record as it was read. Row 0: encoding the fields gives its bytes again. Row 28: it has another length, another mark, or a
 * zero byte that is not 0; then the fields, and the member, are zeros. */
struct sievelast_credential_decoded {
    uint64_t row;
    struct sievelast_credential fields;
};

struct sievelast_request_decoded {
    uint64_t row;
    struct sievelast_request fields;
};

struct sievelast_group_request_decoded {
    uint64_t row;
    struct sievelast_request fields;
    uint32_t member;
};

/* The encoders write a record's 36, 28 or 32 bytes at the start of space and return 0; bytes after them keep their values. Where space
 * is too short they return row 29 and write nothing. Any fields are written: whether a drive takes them is for the issuer, the
 * builder and the gate to say. A request and a group's request have different marks: either decoder refuses the other's record by row
 * 28. Encoders and decoders are in libsievelast.a. */
uint64_t sievelast_credential_encode(struct sievelast_credential fields, uint8_t *space, size_t space_len);
struct sievelast_credential_decoded sievelast_credential_decode(const uint8_t *record, size_t record_len);
uint64_t sievelast_request_encode(struct sievelast_request fields, uint8_t *space, size_t space_len);
struct sievelast_request_decoded sievelast_request_decode(const uint8_t *record, size_t record_len);
uint64_t sievelast_group_request_encode(struct sievelast_request fields, uint32_t member, uint8_t *space, size_t space_len);
struct sievelast_group_request_decoded sievelast_group_request_decode(const uint8_t *record, size_t record_len);

/* ---- results, as the reply check shows them */
struct sievelast_looked {
    uint64_t row;     /* 0, or 28: the result is not 8 bytes long */
    uint32_t size;    /* the object's, or the group's member's, or for object 0 a quarter's; 0 when refused */
    uint32_t version; /* 0 when refused */
};

struct sievelast_versioned {
    uint64_t row;     /* 0, or 28: the result is not 4 bytes long */
    uint32_t version; /* the new version; 0 when refused */
};

/* A look's result, and that of a raise or a create. */
struct sievelast_looked sievelast_look_decode(const uint8_t *result, size_t result_len);
struct sievelast_versioned sievelast_version_decode(const uint8_t *result, size_t result_len);

#ifdef __cplusplus
}
#endif

#endif
