/* What the example programs share: the messages on the store's socket, and small files.
 *
 * A message to the store is four bytes of length and a frame. Its answer is four bytes of row, four bytes of length and the
 * reply, which is empty unless the row is 0. These numbers are big-endian. A connection carries any number of messages, each
 * sent after the answer to the one before. The store lets go of a client that is slow, and of one that had its answer while
 * others wait: a client that gets no answer connects again and sends the same frame; row 12 then says that it had been granted.
 *
 * Include this first: it asks for GNU's names. A program here ends with 0, with 1 when a row refused what it asked for, and with 2
 * when the machine or the command line did.
 */
#ifndef WIRE_H
#define WIRE_H
#ifndef _GNU_SOURCE
#define _GNU_SOURCE
#endif
#include "sievelast_records.h"
#include <errno.h>
#include <fcntl.h>
#include <inttypes.h>
#include <stdio.h>
#include <stdlib.h>
#include <string.h>
#include <sys/socket.h>
#include <sys/stat.h>
#include <sys/time.h>
#include <sys/un.h>
#include <time.h>
#include <unistd.h>

#define WIRE_FRAME_HEAD 4
#define WIRE_ANSWER_HEAD 8
#define WIRE_PATIENCE 30      /* seconds that a client waits for the store to take or to give a byte */
#define WIRE_TRIES 150        /* how often a client tries to reach a store that is not there, or just starts .. */
#define WIRE_PAUSE 20000000   /* .. and the nanoseconds between two tries */
#define WIRE_FIRST_VERSION 1  /* the version with which the examples format a drive */

struct wire_answer {
    uint32_t row;
    uint32_t length; /* of the reply */
};

/* ---- ends */
static inline _Noreturn void wire_fail(const char *what)
{
    perror(what);
    exit(2);
}

static inline _Noreturn void wire_wrong(const char *what, const char *why)
{
    fprintf(stderr, "%s: %s\n", what, why);
    exit(2);
}

static inline _Noreturn void wire_refused(const char *what, uint64_t row)
{
    fprintf(stderr, "%s: row %" PRIu64 ", %s\n", what, row, sievelast_row_text(row));
    exit(1);
}

/* ---- numbers, clocks and files */
static inline void wire_put4(uint8_t *at, uint32_t x)
{
    for (int i = 0; i < 4; i++)
        at[i] = (uint8_t)(x >> (24 - 8 * i));
}

static inline uint32_t wire_get4(const uint8_t *at)
{
    return (uint32_t)at[0] << 24 | (uint32_t)at[1] << 16 | (uint32_t)at[2] << 8 | at[3];
}

/* A number of the command line, in decimal, of at most `most`. */
static inline uint64_t wire_number(const char *text, uint64_t most)
{
    char *end;
    errno = 0;
    uint64_t x = strtoull(text, &end, 10);
    if (*text < '0' || *text > '9' || *end || errno || x > most)
        wire_wrong(text, "not a number, or too large");
    return x;
}

static inline uint64_t wire_milliseconds(clockid_t clock)
{
    struct timespec t;
    if (clock_gettime(clock, &t))
        wire_fail("clock");
    return (uint64_t)t.tv_sec * 1000 + (uint64_t)t.tv_nsec / 1000000;
}

/* The first bytes of a file, `size` at most; how many there are. */
static inline size_t wire_load(const char *name, void *space, size_t size)
{
    FILE *f = fopen(name, "rb");
    if (!f)
        wire_fail(name);
    size_t n = fread(space, 1, size, f);
    if (ferror(f))
        wire_fail(name);
    fclose(f);
    return n;
}

/* A file of exactly `size` bytes. */
static inline void wire_load_exact(const char *name, uint8_t *space, size_t size)
{
    uint8_t beyond;
    FILE *f = fopen(name, "rb");
    if (!f)
        wire_fail(name);
    if (fread(space, 1, size, f) != size || fread(&beyond, 1, 1, f))
        wire_wrong(name, "not as long as it must be");
    fclose(f);
}

/* ---- the socket */
static inline struct sockaddr_un wire_address(const char *path)
{
    struct sockaddr_un a = {.sun_family = AF_UNIX};
    if (strlen(path) >= sizeof a.sun_path)
        wire_wrong(path, "too long for a socket");
    memcpy(a.sun_path, path, strlen(path));
    return a;
}

/* A connection, or -1 and errno. `kind` is 0 or SOCK_NONBLOCK. */
static inline int wire_connect(const char *path, int kind)
{
    struct sockaddr_un a = wire_address(path);
    struct timeval patience = {.tv_sec = WIRE_PATIENCE};
    int s = socket(AF_UNIX, SOCK_STREAM | SOCK_CLOEXEC | kind, 0);
    if (s < 0 || setsockopt(s, SOL_SOCKET, SO_RCVTIMEO, &patience, sizeof patience) ||
        setsockopt(s, SOL_SOCKET, SO_SNDTIMEO, &patience, sizeof patience))
        wire_fail(path);
    if (connect(s, (struct sockaddr *)&a, sizeof a)) {
        int why = errno;
        close(s);
        errno = why;
        return -1;
    }
    return s;
}

/* A connection to a store, which may be about to start. */
static inline int wire_reach(const char *path)
{
    struct timespec pause = {.tv_nsec = WIRE_PAUSE};
    int s = wire_connect(path, 0);
    for (int i = 1; s < 0 && i < WIRE_TRIES && (errno == ENOENT || errno == ECONNREFUSED); i++) {
        nanosleep(&pause, NULL);
        s = wire_connect(path, 0);
    }
    if (s < 0)
        wire_fail(path);
    return s;
}

static inline int wire_give(int s, const uint8_t *bytes, size_t n)
{
    while (n) {
        ssize_t sent = send(s, bytes, n, MSG_NOSIGNAL);
        if (sent < 0)
            return 0;
        bytes += sent;
        n -= (size_t)sent;
    }
    return 1;
}

static inline int wire_take(int s, uint8_t *space, size_t n)
{
    while (n) {
        ssize_t got = recv(s, space, n, 0);
        if (got == 0)
            errno = ECONNRESET;
        if (got <= 0)
            return 0;
        space += got;
        n -= (size_t)got;
    }
    return 1;
}

/* Sends a frame. A store that will not read all of one answers all the same: what can't be sent is seen where no answer comes. */
static inline void wire_send(int s, const uint8_t *frame, size_t frame_len)
{
    uint8_t head[WIRE_FRAME_HEAD];
    wire_put4(head, (uint32_t)frame_len);
    if (wire_give(s, head, sizeof head))
        wire_give(s, frame, frame_len);
}

/* Takes an answer, its reply to the start of `reply`; 0 when none came whole, or its reply is longer than reply_size. */
static inline int wire_receive(int s, struct wire_answer *answer, uint8_t *reply, size_t reply_size)
{
    uint8_t head[WIRE_ANSWER_HEAD];
    if (!wire_take(s, head, sizeof head))
        return 0;
    answer->row = wire_get4(head);
    answer->length = wire_get4(head + 4);
    errno = EMSGSIZE;
    return answer->length <= reply_size && wire_take(s, reply, answer->length);
}

/* One frame and its answer, over a connection of its own. */
static inline struct wire_answer wire_ask(const char *path, const uint8_t *frame, size_t frame_len, uint8_t *reply,
                                          size_t reply_size)
{
    struct wire_answer answer;
    int s = wire_reach(path);
    wire_send(s, frame, frame_len);
    if (!wire_receive(s, &answer, reply, reply_size))
        wire_fail(path);
    close(s);
    return answer;
}

#endif
