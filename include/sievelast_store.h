/* Sievelast's drive for C: format a medium, put frames to the gate, issue credentials. Link libsievelast_store.a, which is
 * `tools/build store`'s libstore.a; it may stand in one program with libsievelast.a. sievelast_records.h has lengths, rows and
 * the records, and says what holds for every call. An example: examples/store.c.
 *
 * Who owns what. The caller lends everything and keeps it: the record (struct sievelast_drive) and the medium (M bytes, fixed at
 * format). Nothing is asked of what a record holds: row 1 refuses one that is not sound and leaves every byte of it. But its bytes
 * are the drive's secrets and its memory of frames: who can write them is the drive, and who can read them has its keys.
 *
 * The record must be aligned as C aligns the struct (8 bytes); all else may lie anywhere, in a mapped file too.
 *
 * One call at a time works on a record and its medium; calls on different records may run in different threads.
 *
 * A call is whole only once it has returned. A program stopped within a grant leaves medium and record as far as the call came:
 * some of the medium's bytes, the keys and the tables may be new while the nonce is not yet entered. Until the drive covers
 * that itself (change 14 of its requests), the caller must keep the frame and a copy of the record from before the call to do it
 * again, and for a write through a group into the group itself the list too, by whose bytes the frame is judged: examples/drive_file.h
 * shows how. A refused format leaves the medium and overwrites the record.
 */
#ifndef SIEVELAST_STORE_H
#define SIEVELAST_STORE_H

#include "sievelast_records.h"

#ifdef __cplusplus
extern "C" {
#endif

/* ---- the record */
#define SIEVELAST_RECORD_KEYS 462   /* bytes: 14 keys of 32 (working keys 0 of the four partitions, working keys 1, partition keys, drive
                                       key, master key), and for each one that says whether it was set */
#define SIEVELAST_RECORD_TABLES 324 /* numbers: for each partition version, last version given, count of objects, and 16 each of
                                       number, version, size, start, which is a multiple of SIEVELAST_EXTENT_STEP where a create
                                       gave it; then of operations 1 to 7 the seven masks and the seven least levels. Row 1 asks
                                       for no step, and for no good table: whatever number stands there counts with all its bits */
#define SIEVELAST_RECORD_PLACES 320 /* entries: 64 for each replay memory */
#define SIEVELAST_RECORD_ENTRY 4    /* numbers of an entry: slot, holder, count, the credential's object (a group, not its member); its
                                       time stands in a row of its own */
#define SIEVELAST_RECORD_ENTRIES (SIEVELAST_RECORD_PLACES * SIEVELAST_RECORD_ENTRY) /* numbers of all, those of an entry together */

/* The drive's record. First what battery memory would keep, then what a drive may lose. A caller may read `size` and `highwater`
 * and copy a record whole while no call works on it; the rest is the drive's. Its form belongs to SIEVELAST_VERSION_MAJOR: whoever
 * keeps one in a file keeps the version beside it, and a library of the same first number takes it as it is. */
struct sievelast_drive {
    uint64_t size; /* M, the medium's length */
    uint32_t tables[SIEVELAST_RECORD_TABLES];
    uint8_t keys[SIEVELAST_RECORD_KEYS];
    uint64_t highwater; /* the mark: the largest clock reading seen, in milliseconds */
    uint64_t lengths[SIEVELAST_MEMORIES];
    uint64_t times[SIEVELAST_RECORD_PLACES];
    uint32_t entries[SIEVELAST_RECORD_ENTRIES];
};

/* ---- the gate's and the issuer's answers */
struct sievelast_answered {
    uint64_t row;    /* 0, or 1 to 23, or 31 to 34 */
    uint64_t length; /* bytes of the reply at the start of reply; 0 when refused */
};

struct sievelast_issued {
    uint64_t row;                     /* 0, or 26, 28, 29 */
    uint8_t key[SIEVELAST_KEY_BYTES]; /* the credential key; zeros when refused */
};

struct sievelast_digest {
    uint64_t row;                          /* 0, or 27 */
    uint8_t bytes[SIEVELAST_DIGEST_BYTES]; /* zeros when refused */
};

/* Writes the 36 bytes of a credential at the start of space and gives its key, from the key of its slot (32 bytes). Row 28: a
 * field is none that a drive takes. No more is asked: a group credential is issued for object 0, too, or for an object that is no group,
 * and opens nothing. Bytes of space after the credential keep their values; a refused call writes none. */
struct sievelast_issued sievelast_issue(struct sievelast_credential fields, const uint8_t *key, size_t key_len, uint8_t *space,
                                        size_t space_len);

/* HMAC with SHA-256, for whoever sets keys: operation 7's new key is the HMAC, under the signing slot's key, of the request's 28
 * bytes and the seed's 16. A group's request, of 32 bytes, sets no key. */
struct sievelast_digest sievelast_hmac(const uint8_t *key, size_t key_len, const uint8_t *message, size_t message_len);

/* ---- format and gate as the archive exports them, over a record's parts: use the two below, which pass them in order */
uint64_t sievelast_format_parts(uint64_t *size, uint64_t *highwater, uint8_t keys[SIEVELAST_RECORD_KEYS],
                                uint32_t tables[SIEVELAST_RECORD_TABLES], uint64_t lengths[SIEVELAST_MEMORIES],
                                uint32_t entries[SIEVELAST_RECORD_ENTRIES], uint64_t times[SIEVELAST_RECORD_PLACES],
                                uint8_t *medium, size_t medium_len, uint32_t first, const uint8_t *master, size_t master_len,
                                const uint8_t *drive_key, size_t drive_key_len);

struct sievelast_answered sievelast_gate_parts(uint64_t size, uint64_t *highwater, uint8_t keys[SIEVELAST_RECORD_KEYS],
                                               uint32_t tables[SIEVELAST_RECORD_TABLES], uint64_t lengths[SIEVELAST_MEMORIES],
                                               uint32_t entries[SIEVELAST_RECORD_ENTRIES],
                                               uint64_t times[SIEVELAST_RECORD_PLACES], uint8_t *medium, size_t medium_len,
                                               const uint8_t *frame, size_t frame_len, uint64_t clock, uint8_t *reply,
                                               size_t reply_len);

/* ---- the drive */
/* Makes a medium a drive's, and *drive its record: every byte of the medium becomes 0, partitions start at version first (not
 * 0), master and drive key have 32 bytes each. Returns 0, or row 24, 25 or 26: then the medium keeps every byte, and the record
 * becomes that of a drive that has nothing but the operation tables with which every drive starts. Whatever record was there is
 * gone either way. */
static inline uint64_t sievelast_format(struct sievelast_drive *drive, uint8_t *medium, size_t medium_len, uint32_t first,
                                        const uint8_t *master, size_t master_len, const uint8_t *drive_key,
                                        size_t drive_key_len)
{
    return sievelast_format_parts(&drive->size, &drive->highwater, drive->keys, drive->tables, drive->lengths, drive->entries,
                                  drive->times, medium, medium_len, first, master, master_len, drive_key, drive_key_len);
}

/* Puts a frame to the gate at a clock reading in milliseconds. A grant writes the reply at the start of reply; bytes after it
 * keep their values. A refused call writes no byte of reply and medium; in the record the mark may rise and entries that it has
 * outlived go, but row 1 moves nothing. A reply space of SIEVELAST_MOST_REPLY_BYTES is enough for every request. */
static inline struct sievelast_answered sievelast_gate(struct sievelast_drive *drive, uint8_t *medium, size_t medium_len,
                                                       const uint8_t *frame, size_t frame_len, uint64_t clock, uint8_t *reply,
                                                       size_t reply_len)
{
    return sievelast_gate_parts(drive->size, &drive->highwater, drive->keys, drive->tables, drive->lengths, drive->entries,
                                drive->times, medium, medium_len, frame, frame_len, clock, reply, reply_len);
}

#ifdef __cplusplus
}
#endif

#endif
