/* A small cutting solver's way to a log's shape: build a read frame, send it, take the shape out of the reply.
 *
 *   solver shape SOCKET CREDENTIAL KEY [MEMBER] > shape                      asks a store (store.c) for every byte that the credential opens
 *   solver frame CREDENTIAL KEY TIME COUNT LENGTH [MEMBER] > frame           the same in two halves, for whatever wire there is: the
 *   solver check CREDENTIAL KEY TIME COUNT LENGTH [MEMBER] < reply > shape   first LENGTH of these bytes, and the shape that the reply shows
 *
 * CREDENTIAL is a file of 36 bytes and KEY one of 32, both from the file manager; TIME is in milliseconds and COUNT numbers the
 * holder's frames for the object in one millisecond. With the credential of a group, a stack of logs, MEMBER is the log's number, and COUNT
 * goes for all logs of the group together. A refusal prints its row, and no shape.
 * Build: cc -Iinclude examples/solver.c target/staticlib/libsolver.a
 */
#include "wire.h"
#include "sievelast.h"
#include <sys/random.h>

static uint8_t credential[SIEVELAST_CREDENTIAL_BYTES], key[SIEVELAST_KEY_BYTES], request[SIEVELAST_GROUP_REQUEST_BYTES];
static size_t request_len = SIEVELAST_REQUEST_BYTES; /* or a group's, */
static uint32_t member;                              /* for this member */
static uint8_t frame[SIEVELAST_GROUP_FRAME_BYTES], reply[SIEVELAST_MOST_REPLY_BYTES + 1];

static void name_member(const char *number)
{
    member = (uint32_t)wire_number(number, UINT32_MAX);
    request_len = SIEVELAST_GROUP_REQUEST_BYTES;
}

/* The range that the credential opens. */
static struct sievelast_credential load_credential(const char *credential_name, const char *key_name)
{
    wire_load_exact(credential_name, credential, sizeof credential);
    wire_load_exact(key_name, key, sizeof key);
    struct sievelast_credential_decoded c = sievelast_credential_decode(credential, sizeof credential);
    if (c.row)
        wire_refused(credential_name, c.row);
    return c.fields;
}

/* Builds a frame at level 2: the reply carries a digest too, without which no byte of it may be believed. */
static size_t build(enum sievelast_operation operation, uint32_t first, uint32_t length, uint64_t time, uint32_t count)
{
    struct sievelast_request r = {.operation = (uint8_t)operation, .level = SIEVELAST_LEVEL_REPLY, .a = first, .b = length};
    r.time = time;
    r.count = count;
    if (request_len == SIEVELAST_GROUP_REQUEST_BYTES)
        sievelast_group_request_encode(r, member, request, request_len);
    else
        sievelast_request_encode(r, request, request_len);
    struct sievelast_built b = sievelast_build(credential, sizeof credential, request, request_len, NULL, 0, key, sizeof key,
                                               frame, sizeof frame);
    if (b.row)
        wire_refused("no frame", b.row);
    return b.length;
}

static int print(const uint8_t *bytes, size_t n)
{
    return fwrite(bytes, 1, n, stdout) == n && fflush(stdout) == 0 ? 0 : 2;
}

/* Where in a reply to the frame the result is. */
static struct sievelast_checked check(size_t reply_len)
{
    struct sievelast_checked c = sievelast_check(credential, sizeof credential, request, request_len, key, sizeof key, reply,
                                                 reply_len);
    if (c.row)
        wire_refused("no shape", c.row);
    return c;
}

/* Sends a frame of the present time, and checks the reply. */
static struct sievelast_checked ask(const char *path, enum sievelast_operation operation, uint32_t first, uint32_t length, uint32_t count)
{
    size_t frame_len = build(operation, first, length, wire_milliseconds(CLOCK_REALTIME), count);
    struct wire_answer a = wire_ask(path, frame, frame_len, reply, sizeof reply);
    if (a.row)
        wire_refused("no shape", a.row);
    return check(a.length);
}

/* The end of what there is to read. The credential of a log ends with the log; that of a group does not know how long a member is, and a
 * look says so. Should the log change hands before it is read, the group is raised, and row 15 refuses the read. */
static uint32_t end_of(const char *path, struct sievelast_credential c, uint32_t count)
{
    if (request_len == SIEVELAST_REQUEST_BYTES)
        return c.end;
    struct sievelast_checked look = ask(path, SIEVELAST_LOOK, 0, 0, count);
    uint32_t size = sievelast_look_decode(reply + look.start, look.length).size;
    return size < c.end ? size : c.end;
}

/* The count is random: other processes may send frames of this holder for this object in the same millisecond. */
static int shape(const char *path, const char *credential_name, const char *key_name)
{
    struct sievelast_credential c = load_credential(credential_name, key_name);
    uint32_t count;
    if (getrandom(&count, sizeof count, 0) != sizeof count)
        wire_fail("random bytes");
    uint32_t end = end_of(path, c, count);
    struct sievelast_checked read = ask(path, SIEVELAST_READ, c.first, end > c.first ? end - c.first : 0, count + 1);
    return print(reply + read.start, read.length);
}

int main(int count, char **words)
{
    const char *command = count > 1 ? words[1] : "";
    int asks = !strcmp(command, "shape"), sends = !strcmp(command, "frame"), needed = asks ? 5 : 7;
    if ((!asks && !sends && strcmp(command, "check")) || (count != needed && count != needed + 1))
        wire_wrong("usage", "solver shape SOCKET CREDENTIAL KEY [MEMBER], frame|check CREDENTIAL KEY TIME COUNT LENGTH [MEMBER]");
    if (count > needed)
        name_member(words[needed]);
    if (asks)
        return shape(words[2], words[3], words[4]);
    struct sievelast_credential c = load_credential(words[2], words[3]);
    size_t frame_len = build(SIEVELAST_READ, c.first, (uint32_t)wire_number(words[6], UINT32_MAX), wire_number(words[4], UINT64_MAX),
                             (uint32_t)wire_number(words[5], UINT32_MAX));
    if (sends)
        return print(frame, frame_len);
    struct sievelast_checked read = check(fread(reply, 1, sizeof reply, stdin));
    return print(reply + read.start, read.length);
}
