/* A drive in a file: its record, its medium, and the frame that is just being put to the gate, all mapped.
 *
 * A call is whole or not made, wherever the program is stopped. The file has two records. The gate works on a copy of the one in
 * force, in the place of the other, while the frame and its clock reading are kept beside them; one store to `state` then puts
 * the copy in force. Whoever opens the file and finds a call under way puts the kept frame to the gate again. That is right for
 * each operation, because row, reply length and new record depend on the record in force, the frame, the clock reading, the
 * lengths, and for a group's frame the list in the group's bytes, and all these are as they were:
 *   - a write puts its data over the same bytes once more, half written before or not, and touches no other. Of a write through a group
 *     the member is not the group: the list stays as it was;
 *   - a create zeroes the same area once more: which one, the record in force says. Under a library whose SIEVELAST_VERSION differs
 *     in the second number that may be another free area; what was zeroed of the first is in no object;
 *   - a raise, a delete, a new key and a new table change the record alone, and the half changed copy is overwritten first;
 *   - a read and a look change the record's replay memory and mark alone, a refused frame its mark and outlived entries.
 * One frame would not find everything as it was: a write through a group into the group itself, half done, has changed the list by which
 * rows 32 and 33 judge it. Such a frame the gate gets with a copy of the medium. What it changed there is kept in the frame's place,
 * one store to `state` says that the call is made but for these bytes, and then they go to the medium; whoever finds the file so has
 * only to copy them once more.
 * No other frame is put to the gate in between. The client of a call done again gets no answer (wire.h says what it does then).
 * A stopped process leaves what it stored to the map; with `synced` each step waits for the disk, and the same holds for a power
 * cut as far as the disk keeps its word. That a cut leaves no more than that is argued here, and not tested.
 */
#ifndef DRIVE_FILE_H
#define DRIVE_FILE_H
#include "wire.h"
#include "sievelast_store.h"
#include <stdatomic.h>
#include <sys/file.h>
#include <sys/mman.h>

#define DRIVE_FILE_MARK "Sievelast drive"
#define DRIVE_FILE_PAGE 4096
#define DRIVE_FILE_UNDER_WAY 2 /* in `state`: the kept frame is being put to the gate */
#define DRIVE_FILE_COPYING 4   /* in `state`: the other record is made, and the kept bytes are being copied into the medium */
#define DRIVE_FILE_RECORDS 1048744 /* where the records stand in a file of this first number of the version */

/* Of a longer frame the gate is shown this many bytes. No frame is granted at this length or over it, and the row is the same:
 * rows 3 and 4 look at the first 64 bytes, and row 5 then meets both, as neither is 96 + n or, for a group, 100 + n bytes for any n that
 * row 4 lets pass. */
#define DRIVE_FILE_BOUND (SIEVELAST_MOST_FRAME_BYTES + 1)

struct drive_file {
    char mark[16];
    char version[16]; /* SIEVELAST_VERSION of whoever made it; its first number is the records' form */
    uint64_t record_size;
    _Atomic uint64_t state; /* the record in force, 0 or 1; and DRIVE_FILE_UNDER_WAY or DRIVE_FILE_COPYING */
    uint64_t clock;         /* of the kept frame; or where in the medium the kept bytes go */
    uint64_t length;
    uint8_t frame[DRIVE_FILE_BOUND];
    struct sievelast_drive drive[2];
};

_Static_assert(offsetof(struct drive_file, drive) == DRIVE_FILE_RECORDS, "files of an earlier version have the records elsewhere");

#define DRIVE_FILE_MEDIUM ((sizeof(struct drive_file) + DRIVE_FILE_PAGE - 1) / DRIVE_FILE_PAGE * DRIVE_FILE_PAGE)

/* A drive's file as a program has it. */
struct drive_map {
    struct drive_file *file;
    uint8_t *medium;
    size_t medium_len;
    int synced;
};

/* Opens the file under a lock that ends with the process: two servers of one drive would grant a frame twice. */
static inline int drive_file_lock(const char *name, int how)
{
    int f = open(name, how | O_RDWR | O_CLOEXEC, 0600);
    if (f < 0)
        wire_fail(name);
    if (flock(f, LOCK_EX | LOCK_NB))
        wire_wrong(name, "another server has it");
    return f;
}

static inline struct drive_map drive_file_map(const char *name, int f, size_t size)
{
    uint8_t *at = mmap(NULL, size, PROT_READ | PROT_WRITE, MAP_SHARED, f, 0);
    if (at == MAP_FAILED)
        wire_fail(name);
    return (struct drive_map){
        .file = (struct drive_file *)at, .medium = at + DRIVE_FILE_MEDIUM, .medium_len = size - DRIVE_FILE_MEDIUM};
}

/* A new file, with every byte of it had from the disk; or the row for which there is none. Its mark is written last. */
static inline uint64_t drive_file_make(const char *name, size_t medium_len, const uint8_t *master, size_t master_len,
                                       const uint8_t *key, size_t key_len)
{
    int f = drive_file_lock(name, O_CREAT | O_EXCL);
    errno = posix_fallocate(f, 0, (off_t)(DRIVE_FILE_MEDIUM + medium_len));
    if (errno) {
        unlink(name);
        wire_fail(name);
    }
    struct drive_map m = drive_file_map(name, f, DRIVE_FILE_MEDIUM + medium_len);
    uint64_t row = sievelast_format(&m.file->drive[0], m.medium, medium_len, WIRE_FIRST_VERSION, master, master_len, key, key_len);
    if (row) {
        unlink(name);
        return row;
    }
    m.file->record_size = sizeof m.file->drive[0];
    memcpy(m.file->version, SIEVELAST_VERSION, sizeof SIEVELAST_VERSION);
    memcpy(m.file->mark, DRIVE_FILE_MARK, sizeof DRIVE_FILE_MARK);
    if (msync(m.file, DRIVE_FILE_MEDIUM + medium_len, MS_SYNC) || fsync(f))
        wire_fail(name);
    return SIEVELAST_GRANTED;
}

/* Whether a file's records have the form that is known here, by the first number of its version. */
static inline int drive_file_has_form(const char *version, size_t length)
{
    const char *dot = memchr(version, '.', length);
    return dot && strtoul(version, NULL, 10) == SIEVELAST_VERSION_MAJOR;
}

/* Whether a file's parts fit each other, and bytes that are to be copied into the medium have their place there. */
static inline int drive_file_fits(const struct drive_map *m)
{
    const struct drive_file *f = m->file;
    if (f->record_size != sizeof f->drive[0] || f->state > (1 | DRIVE_FILE_COPYING) || f->length > DRIVE_FILE_BOUND)
        return 0;
    if (f->drive[f->state & 1].size != m->medium_len || m->medium_len > SIEVELAST_MOST_MEDIUM_BYTES)
        return 0;
    return !(f->state & DRIVE_FILE_COPYING) || (f->clock <= m->medium_len && f->length <= m->medium_len - f->clock);
}

static inline struct drive_map drive_file_open(const char *name)
{
    struct stat s;
    int f = drive_file_lock(name, 0);
    if (fstat(f, &s))
        wire_fail(name);
    if (!S_ISREG(s.st_mode) || (size_t)s.st_size < DRIVE_FILE_MEDIUM)
        wire_wrong(name, "not a drive's file");
    struct drive_map m = drive_file_map(name, f, (size_t)s.st_size);
    if (memcmp(m.file->mark, DRIVE_FILE_MARK, sizeof DRIVE_FILE_MARK))
        wire_wrong(name, "not a drive's file");
    if (!drive_file_has_form(m.file->version, sizeof m.file->version))
        wire_wrong(name, "a drive's file of another version than " SIEVELAST_VERSION ": its records have another form");
    if (!drive_file_fits(&m))
        wire_wrong(name, "a drive's file whose parts do not fit each other");
    return m;
}

static inline void drive_file_flush(const struct drive_map *m, size_t size)
{
    if (m->synced && msync(m->file, size, MS_SYNC))
        wire_fail("msync");
}

/* All that was written before comes before the step, all that is written later comes after it. */
static inline void drive_file_step(struct drive_map *m, uint64_t state)
{
    drive_file_flush(m, DRIVE_FILE_MEDIUM + m->medium_len);
    atomic_store(&m->file->state, state);
    drive_file_flush(m, DRIVE_FILE_PAGE);
}

/* Copies the kept bytes into the medium, and puts the record in force that was made with them. */
static inline void drive_file_copy(struct drive_map *m)
{
    struct drive_file *f = m->file;
    memcpy(m->medium + f->clock, f->frame, f->length);
    drive_file_step(m, (f->state & 1) ^ 1);
}

/* Does what is under way: puts the kept frame to the gate, and the record that this makes in force; or copies the kept bytes, for a client
 * whose answer is lost. The reply space has SIEVELAST_MOST_REPLY_BYTES. */
static inline struct sievelast_answered drive_file_finish(struct drive_map *m, uint8_t *reply)
{
    struct drive_file *f = m->file;
    uint64_t old = f->state & 1, new = old ^ 1;
    if (f->state & DRIVE_FILE_COPYING) {
        drive_file_copy(m);
        return (struct sievelast_answered){0};
    }
    f->drive[new] = f->drive[old];
    struct sievelast_answered a = sievelast_gate(&f->drive[new], m->medium, m->medium_len, f->frame, f->length, f->clock, reply,
                                                 SIEVELAST_MOST_REPLY_BYTES);
    drive_file_step(m, new);
    return a;
}

/* Whether the kept frame is a write through a group into the group itself: a group's request, whose member is the credential's object. */
static inline int drive_file_rewrites_list(const struct drive_file *f)
{
    static const uint8_t write_request[] = {0x4c, 0x47, SIEVELAST_WRITE};
    const uint8_t *object = f->frame + 4, *request = f->frame + SIEVELAST_CREDENTIAL_BYTES, *member = request + SIEVELAST_REQUEST_BYTES;
    return f->length >= SIEVELAST_GROUP_FRAME_BYTES && !memcmp(request, write_request, sizeof write_request) &&
           !memcmp(object, member, SIEVELAST_MEMBER_BYTES);
}

/* Such a call: the gate works on a copy of the medium, and what a grant changed there is kept. That is no more than the frame's data. */
static inline struct sievelast_answered drive_file_call_on_copy(struct drive_map *m, uint8_t *reply)
{
    static uint8_t copy[SIEVELAST_MOST_MEDIUM_BYTES];
    struct drive_file *f = m->file;
    uint64_t old = f->state & 1, new = old ^ 1;
    memcpy(copy, m->medium, m->medium_len);
    f->drive[new] = f->drive[old];
    struct sievelast_answered a = sievelast_gate(&f->drive[new], copy, m->medium_len, f->frame, f->length, f->clock, reply,
                                                 SIEVELAST_MOST_REPLY_BYTES);
    size_t first = 0, end = a.row ? 0 : m->medium_len;
    while (first < end && copy[first] == m->medium[first])
        first++;
    while (end > first && copy[end - 1] == m->medium[end - 1])
        end--;
    f->clock = first;
    f->length = end - first;
    memcpy(f->frame, copy + first, end - first);
    drive_file_step(m, old | DRIVE_FILE_COPYING);
    drive_file_copy(m);
    return a;
}

/* A call of the gate. The frame has at most DRIVE_FILE_BOUND bytes; as it is kept first, the reply may overwrite it. */
static inline struct sievelast_answered drive_file_call(struct drive_map *m, const uint8_t *frame, size_t length, uint64_t clock,
                                                        uint8_t *reply)
{
    memcpy(m->file->frame, frame, length);
    m->file->length = length;
    m->file->clock = clock;
    if (drive_file_rewrites_list(m->file))
        return drive_file_call_on_copy(m, reply);
    drive_file_step(m, m->file->state | DRIVE_FILE_UNDER_WAY);
    return drive_file_finish(m, reply);
}

static inline int drive_file_under_way(const struct drive_map *m)
{
    return (m->file->state & (DRIVE_FILE_UNDER_WAY | DRIVE_FILE_COPYING)) != 0;
}

#endif
