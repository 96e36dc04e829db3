/* Clients for the example store (examples/store.c): some that misbehave, and some that look on meanwhile.
 *
 *   clients messages SOCKET                                 the bytes of a message and its answer; two messages on a connection
 *   clients junk SOCKET SEED                                bytes without sense, messages broken off
 *   clients flood SOCKET WRITE-CREDENTIAL KEY MOST          costly frames without a pause until the store ends: in time MOST
 *   clients overlong SOCKET CREDENTIAL KEY [MEMBER]         frames over the bound: the row, then the end of the connection
 *   clients stall SOCKET CREDENTIAL KEY TIMEOUT             five ways to be slow: each dropped in time, others answered meanwhile
 *   clients crowd SOCKET CREDENTIAL KEY PLACES TIMEOUT      as many clients as there are places, and more
 *   clients parts SOCKET WRITE-CREDENTIAL KEY READ-CREDENTIAL KEY < shape > shape      a shape written and read in small parts
 *   clients old SOCKET CREDENTIAL KEY AGE < shape           writes a shape by a frame that says it is AGE old
 *   clients member SOCKET CREDENTIAL KEY MEMBER < shape > frame      writes a shape of any length through a group
 *   clients kills STORE FILE SOCKET WRITE-CREDENTIAL KEY READ-CREDENTIAL KEY ROUNDS LOG     a server killed while frames stream in
 *
 * Credentials are for an object of OBJECT_BYTES, or with MEMBER for a group. Times in milliseconds. The status is 1 after the first
 * answer that is not as it must be, which is printed beside the one expected. */
#include "wire.h"
#include "sievelast.h"
#include <poll.h>
#include <signal.h>
#include <sys/prctl.h>
#include <sys/wait.h>

#define OBJECT_BYTES SIEVELAST_MOST_DATA_BYTES
#define NO_ANSWER 1000   /* in the place of a row: the connection ended */
#define FLOODS 8         /* connections of one flood */
#define LATE 8           /* clients that find no place */
#define QUIET 100        /* in which nothing may come */
#define PAUSE 20

struct holder {
    uint8_t credential[SIEVELAST_CREDENTIAL_BYTES], key[SIEVELAST_KEY_BYTES];
    size_t request_len; /* of its requests; a group's are for .. */
    uint32_t member;
};

struct message {
    uint8_t request[SIEVELAST_GROUP_REQUEST_BYTES];
    uint8_t frame[SIEVELAST_MOST_FRAME_BYTES];
    size_t length;
};

static uint8_t reply[SIEVELAST_MOST_REPLY_BYTES], data[OBJECT_BYTES];
static uint64_t seed = 1;
static uint64_t age = 3000; /* how old a frame says it is: the replay memory then outlives it in 2 seconds */

static void expect(const char *what, uint64_t expected, uint64_t came)
{
    if (expected == came)
        return;
    printf("clients: %s: expected %" PRIu64 ", came %" PRIu64 "\n", what, expected, came);
    exit(1);
}

/* A time that may lie anywhere from one to the other: the machine may be slow, the server may not be early. */
static void expect_between(const char *what, uint64_t from, uint64_t to, uint64_t came)
{
    if (from <= came && came <= to)
        return;
    printf("clients: %s: expected %" PRIu64 " to %" PRIu64 " ms, came %" PRIu64 "\n", what, from, to, came);
    exit(1);
}

static uint64_t now(void)
{
    return wire_milliseconds(CLOCK_MONOTONIC);
}

static void rest(long milliseconds)
{
    nanosleep(&(struct timespec){.tv_nsec = milliseconds * 1000000}, NULL);
}

/* xorshift64: the same numbers for the same seed */
static uint64_t random_below(uint64_t most)
{
    seed ^= seed << 13;
    seed ^= seed >> 7;
    seed ^= seed << 17;
    return seed % most;
}

static struct holder load_holder(char **names)
{
    struct holder h = {.request_len = SIEVELAST_REQUEST_BYTES};
    wire_load_exact(names[0], h.credential, sizeof h.credential);
    wire_load_exact(names[1], h.key, sizeof h.key);
    return h;
}

/* The holder of a group's credential, who asks for one of its logs. */
static struct holder load_member(char **names, const char *member)
{
    struct holder h = load_holder(names);
    h.request_len = SIEVELAST_GROUP_REQUEST_BYTES;
    h.member = (uint32_t)wire_number(member, UINT32_MAX);
    return h;
}

/* A frame at level 2 of its own count; a write's data are the first `length` bytes of `data`. */
static void build(struct message *m, const struct holder *h, enum sievelast_operation operation, uint32_t length)
{
    static uint32_t count;
    uint32_t n = operation == SIEVELAST_WRITE ? length : 0;
    struct sievelast_request r = {.operation = (uint8_t)operation, .level = SIEVELAST_LEVEL_REPLY, .b = length, .data_len = n};
    r.time = wire_milliseconds(CLOCK_REALTIME) - age;
    r.count = (uint32_t)getpid() << 12 | count++;
    if (h->request_len == SIEVELAST_GROUP_REQUEST_BYTES)
        sievelast_group_request_encode(r, h->member, m->request, h->request_len);
    else
        sievelast_request_encode(r, m->request, h->request_len);
    struct sievelast_built b = sievelast_build(h->credential, sizeof h->credential, m->request, h->request_len, data, n, h->key,
                                               sizeof h->key, m->frame, sizeof m->frame);
    expect("row of the builder", 0, b.row);
    m->length = b.length;
}

static void give(int s, const uint8_t *bytes, size_t n)
{
    expect("bytes taken by the store", 1, (uint64_t)wire_give(s, bytes, n));
}

/* The row of the answer that comes next, with its reply in `reply`. */
static uint64_t receive(int s, size_t *reply_len)
{
    struct wire_answer a;
    if (!wire_receive(s, &a, reply, sizeof reply))
        return NO_ANSWER;
    *reply_len = a.length;
    return a.row;
}

static uint64_t exchange(int s, const uint8_t *frame, size_t length)
{
    size_t unused;
    wire_send(s, frame, length);
    return receive(s, &unused);
}

/* Takes the answer to a message and believes what the reply check shows of it. */
static void receive_granted(int s, const struct holder *h, const struct message *m, size_t result_len)
{
    size_t n = 0;
    expect("row of a frame that must be granted", 0, receive(s, &n));
    struct sievelast_checked c = sievelast_check(h->credential, sizeof h->credential, m->request, h->request_len, h->key,
                                                 sizeof h->key, reply, n);
    expect("row of the reply check", 0, c.row);
    expect("bytes of the result", result_len, c.length);
}

/* Whether the store has let go of this connection, whatever lies unread in it. */
static int let_go(int s)
{
    struct pollfd look = {.fd = s};
    return poll(&look, 1, 0) > 0 && look.revents & POLLHUP;
}

static int readable(int s, int milliseconds)
{
    struct pollfd look = {.fd = s, .events = POLLIN};
    return poll(&look, 1, milliseconds) > 0;
}

/* A client of good manners is answered, and at once. */
static void others_served(const char *path, uint64_t within)
{
    uint64_t start = now();
    int s = wire_reach(path);
    expect("row of another client's empty frame", SIEVELAST_ROW_FRAME_SHORT, exchange(s, NULL, 0));
    expect_between("another client's answer", 0, within, now() - start);
    close(s);
}

/* ---- messages: nothing of wire.h between these bytes and the store */
static void messages(const char *path)
{
    static const uint8_t empty[4] = {0, 0, 0, 0}, refused[8] = {0, 0, 0, 2, 0, 0, 0, 0}, zeros[96];
    uint8_t came[8];
    int s = wire_reach(path);
    give(s, empty, sizeof empty);
    expect("bytes of an answer", 1, (uint64_t)wire_take(s, came, sizeof came));
    expect("an answer that is row 2 and no reply", 0, (uint64_t)memcmp(came, refused, sizeof came));
    expect("row of 95 bytes", SIEVELAST_ROW_FRAME_SHORT, exchange(s, zeros, 95));
    expect("row of 96 zeros, on the same connection", SIEVELAST_ROW_MARKS, exchange(s, zeros, 96));
    expect("bytes beyond the answers", 0, (uint64_t)readable(s, QUIET));
    shutdown(s, SHUT_WR);
    expect("end of the connection", 1, (uint64_t)readable(s, 1000) && let_go(s));
}

/* ---- junk */
static void junk(const char *path)
{
    for (int round = 0; round < 200; round++) {
        int s = wire_reach(path);
        size_t n = random_below(round % 2 ? 64 : 4000);
        for (size_t i = 0; i < n; i++)
            data[i] = (uint8_t)random_below(256);
        /* every other time the first length is one that the store will wait for, or meet in the middle */
        if (round % 4 < 2 && n >= WIRE_FRAME_HEAD)
            wire_put4(data, (uint32_t)random_below(2 * n));
        wire_give(s, data, n);
        if (round % 3 == 0)
            shutdown(s, SHUT_WR);
        close(s);
    }
    others_served(path, 1000);
}

/* ---- a flood of the frames that cost a store most: as long as can be, good in all but the digest */
static uint8_t wave[WIRE_FRAME_HEAD + SIEVELAST_MOST_FRAME_BYTES];

/* Sends what the socket takes of one message after the other, and takes what answers there are; 0 when the store is gone. */
static int pour(int s, size_t *at)
{
    ssize_t sent = send(s, wave + *at, sizeof wave - *at, MSG_NOSIGNAL | MSG_DONTWAIT);
    if (sent < 0 && errno != EAGAIN)
        return 0;
    if (sent > 0)
        *at = (*at + (size_t)sent) % sizeof wave;
    return recv(s, reply, sizeof reply, MSG_DONTWAIT) != 0;
}

static void flood(const char *path, const struct holder *writer, uint64_t most)
{
    static struct message m;
    int s[FLOODS];
    size_t at[FLOODS] = {0};
    build(&m, writer, SIEVELAST_WRITE, OBJECT_BYTES);
    m.frame[m.length - 1] ^= 1;
    wire_put4(wave, (uint32_t)m.length);
    memcpy(wave + WIRE_FRAME_HEAD, m.frame, m.length);
    for (int i = 0; i < FLOODS; i++)
        s[i] = wire_reach(path);
    uint64_t start = now();
    for (int i = 0; pour(s[i], &at[i]); i = (i + 1) % FLOODS)
        if (now() - start >= most)
            expect_between("end of the store under a flood", 0, most - 1, now() - start);
}

/* ---- frames over the bound */
/* A good frame that goes on, up to the length said or to twice the bound, as far as the store takes it. */
static void send_overlong(int s, const struct message *m, uint32_t length)
{
    uint8_t head[WIRE_FRAME_HEAD];
    size_t left = (length < 2 * SIEVELAST_MOST_FRAME_BYTES ? length : 2 * SIEVELAST_MOST_FRAME_BYTES) - m->length;
    wire_put4(head, length);
    give(s, head, sizeof head);
    give(s, m->frame, m->length);
    for (size_t n; left; left -= n) {
        n = left < sizeof data ? left : sizeof data;
        if (!wire_give(s, data, n))
            return;
    }
}

static void overlong(const char *path, const struct holder *h)
{
    static struct message m;
    static const uint32_t lengths[] = {SIEVELAST_MOST_FRAME_BYTES + 1, SIEVELAST_MOST_FRAME_BYTES + 100000, UINT32_MAX};
    size_t unused;
    for (int i = 0; i < 3; i++) {
        int s = wire_reach(path);
        build(&m, h, SIEVELAST_READ, 1);
        send_overlong(s, &m, lengths[i]);
        expect("row of a frame over the bound", SIEVELAST_ROW_LENGTHS, receive(s, &unused));
        /* the first was read to its end: the connection goes on */
        expect("row or no answer after it", i ? NO_ANSWER : SIEVELAST_ROW_FRAME_SHORT, exchange(s, NULL, 0));
        close(s);
    }
}

/* ---- slow clients */
enum slow { IDLE, HALF_HEAD, HALF_FRAME, DRIP, DEAF, SLOW };
static const char *const slow_names[SLOW] = {"one that says nothing", "one that stalls within the length",
                                             "one that stalls within the frame", "one that sends a byte now and then",
                                             "one that does not take its answer"};

static void begin_slow(const char *path, const struct holder *h, int s[SLOW])
{
    static struct message m;
    static const uint8_t part[WIRE_FRAME_HEAD + 50] = {0, 0, 0, SIEVELAST_LEAST_FRAME_BYTES}, long_head[] = {0, 0, 16, 0};
    for (int i = 0; i < SLOW; i++)
        s[i] = wire_reach(path);
    give(s[HALF_HEAD], part, 2);
    give(s[HALF_FRAME], part, sizeof part);
    give(s[DRIP], long_head, sizeof long_head);
    build(&m, h, SIEVELAST_READ, OBJECT_BYTES);
    wire_send(s[DEAF], m.frame, m.length);
}

static void stall(const char *path, const struct holder *h, uint64_t timeout)
{
    int s[SLOW], left = SLOW, gone[SLOW] = {0};
    uint64_t start = now();
    size_t unused;
    begin_slow(path, h, s);
    while (left && now() - start < 4 * timeout) {
        rest(PAUSE);
        if (!gone[DRIP])
            wire_give(s[DRIP], data, 1);
        others_served(path, timeout / 2);
        for (int i = 0; i < SLOW; i++)
            if (!gone[i] && let_go(s[i])) {
                expect_between(slow_names[i], timeout * 9 / 10, 3 * timeout, now() - start);
                gone[i] = 1;
                left--;
            }
    }
    for (int i = 0; i < SLOW; i++)
        expect(slow_names[i], 1, (uint64_t)gone[i]);
    expect("an answer cut off", NO_ANSWER, receive(s[DEAF], &unused));
}

/* ---- many clients */
struct guest {
    int s;
    uint64_t row;
    struct message m;
};

/* Guests of four kinds, so that an answer given to the wrong one shows. */
static void prepare(struct guest *g, const struct holder *h, int i, const char *path)
{
    static const uint64_t rows[4] = {0, SIEVELAST_ROW_FRAME_SHORT, SIEVELAST_ROW_MARKS, SIEVELAST_ROW_DIGEST};
    g->s = wire_reach(path);
    g->row = rows[i % 4];
    build(&g->m, h, SIEVELAST_READ, 1 + (uint32_t)i);
    if (g->row == SIEVELAST_ROW_FRAME_SHORT)
        g->m.length = 0;
    if (g->row == SIEVELAST_ROW_MARKS)
        memset(g->m.frame, 0, g->m.length);
    if (g->row == SIEVELAST_ROW_DIGEST)
        g->m.frame[g->m.length - 1] ^= 1;
}

static void served(struct guest *g, const struct holder *h, int i)
{
    size_t unused;
    if (g->row)
        expect("row of one of many clients", g->row, receive(g->s, &unused));
    else
        receive_granted(g->s, h, &g->m, 1 + (size_t)i);
}

/* The bytes of a guest's message from its third on; the first two are zeros for each of them. */
static void send_rest(const struct guest *g)
{
    uint8_t head[WIRE_FRAME_HEAD];
    wire_put4(head, (uint32_t)g->m.length);
    give(g->s, head + 2, 2);
    give(g->s, g->m.frame, g->m.length);
}

/* Every place is taken by a message half sent, and others wait. Then the messages come whole: whoever had an answer makes room
 * for one that waits, though no client goes by itself. */
static void crowd(const char *path, const struct holder *h, int places, uint64_t timeout)
{
    static const uint8_t two_zeros[2];
    struct guest *g = calloc((size_t)places + LATE, sizeof *g);
    if (!g)
        wire_fail("memory");
    for (int i = 0; i < places + LATE; i++) {
        prepare(&g[i], h, i, path);
        give(g[i].s, two_zeros, sizeof two_zeros);
        if (i >= places)
            send_rest(&g[i]);
    }
    for (int i = places; i < places + LATE; i++)
        expect("an answer without a place", 0, (uint64_t)readable(g[i].s, QUIET / LATE));
    uint64_t start = now();
    for (int i = places - 1; i >= 0; i--)
        send_rest(&g[i]);
    for (int i = 0; i < places + LATE; i++)
        served(&g[i], h, i);
    expect_between("the answers to all", 0, timeout / 2, now() - start);
    for (int i = 0; i < places + LATE; i++)
        close(g[i].s);
    free(g);
}

/* Every place is taken by one that says nothing: a newcomer waits until they are dropped, and no longer. */
static void idle_crowd(const char *path, int places, uint64_t timeout)
{
    uint64_t start = now();
    for (int i = 0; i < places; i++)
        wire_reach(path);
    others_served(path, 3 * timeout);
    expect_between("a newcomer's answer", timeout * 9 / 10, 3 * timeout, now() - start);
}

/* ---- a shape in parts */
static void parts(const char *path, const struct holder *writer, const struct holder *reader)
{
    static struct message m;
    uint8_t head[WIRE_FRAME_HEAD];
    int s = wire_reach(path);
    expect("bytes of the shape", sizeof data, fread(data, 1, sizeof data, stdin));
    build(&m, writer, SIEVELAST_WRITE, OBJECT_BYTES);
    wire_put4(head, (uint32_t)m.length);
    for (int i = 0; i < WIRE_FRAME_HEAD; i++)
        give(s, head + i, 1), rest(1);
    for (size_t at = 0, n; at < m.length; at += n) {
        n = 1 + random_below(m.length / 20);
        n = n < m.length - at ? n : m.length - at;
        give(s, m.frame + at, n);
        rest(1);
    }
    receive_granted(s, writer, &m, 0);
    build(&m, reader, SIEVELAST_READ, OBJECT_BYTES);
    wire_send(s, m.frame, m.length);
    rest(PAUSE); /* the reply is longer than a socket's buffer: the store has to wait for us */
    receive_granted(s, reader, &m, OBJECT_BYTES);
    expect("bytes printed", OBJECT_BYTES, fwrite(reply + SIEVELAST_REPLY_HEAD_BYTES, 1, OBJECT_BYTES, stdout));
}

/* ---- one write of so many bytes */
static void write_once(const char *path, const struct holder *writer, uint32_t length, struct message *m)
{
    struct wire_answer a;
    int s = wire_reach(path);
    build(m, writer, SIEVELAST_WRITE, length);
    wire_send(s, m->frame, m->length);
    if (!wire_receive(s, &a, reply, sizeof reply))
        wire_fail(path);
    if (a.row)
        wire_refused("not written", a.row);
    struct sievelast_checked c = sievelast_check(writer->credential, sizeof writer->credential, m->request, writer->request_len,
                                                 writer->key, sizeof writer->key, reply, a.length);
    expect("row of the reply check", 0, c.row);
    close(s);
}

/* By a frame that is about to run out. */
static void old(const char *path, const struct holder *writer)
{
    static struct message m;
    expect("bytes of the shape", sizeof data, fread(data, 1, sizeof data, stdin));
    write_once(path, writer, OBJECT_BYTES, &m);
}

/* Through a group. */
static void write_member(const char *path, const struct holder *writer)
{
    static struct message m;
    write_once(path, writer, (uint32_t)fread(data, 1, sizeof data, stdin), &m);
    expect("bytes printed", m.length, fwrite(m.frame, 1, m.length, stdout));
}

/* ---- a server killed while frames stream in */
static volatile pid_t server;

/* The server ends with us, should an answer be wrong. */
static void start_server(char **words, const char *log)
{
    server = fork();
    if (server < 0)
        wire_fail("fork");
    if (server)
        return;
    int f = open(log, O_WRONLY | O_CREAT | O_APPEND, 0600);
    if (f < 0 || dup2(f, STDERR_FILENO) < 0 || prctl(PR_SET_PDEATHSIG, SIGKILL))
        wire_fail(log);
    execl(words[0], words[0], "serve", words[1], words[2], (char *)NULL);
    wire_fail(words[0]);
}

static void kill_server(int number)
{
    (void)number;
    kill(server, SIGKILL);
}

static int end_of_server(void)
{
    int status;
    if (waitpid(server, &status, 0) < 0)
        wire_fail("waitpid");
    return status;
}

/* The row of a frame, sent again while the replay memory is full. */
static uint64_t ask_patiently(const char *path, const struct message *m)
{
    uint64_t row;
    do {
        int s = wire_reach(path);
        row = exchange(s, m->frame, m->length);
        close(s);
        if (row == SIEVELAST_ROW_MEMORY_FULL)
            rest(PAUSE);
    } while (row == SIEVELAST_ROW_MEMORY_FULL);
    return row;
}

/* Shapes of one byte value each, one after the other, until the server is killed, in `after` microseconds. The last value sent is
 * *value; the one before it was the last granted. */
static void stream(const char *path, const struct holder *writer, struct message *m, uint8_t *value, long after)
{
    struct itimerval bell = {.it_value = {.tv_usec = after}};
    uint64_t row;
    int s = wire_reach(path);
    setitimer(ITIMER_REAL, &bell, NULL);
    do {
        memset(data, ++*value, sizeof data);
        build(m, writer, SIEVELAST_WRITE, OBJECT_BYTES);
        while ((row = exchange(s, m->frame, m->length)) == SIEVELAST_ROW_MEMORY_FULL)
            rest(PAUSE);
    } while (row == 0);
    expect("row in a stream of writes, or no answer", NO_ANSWER, row);
    close(s);
    expect("signal that ended the server", SIGKILL, (uint64_t)WTERMSIG(end_of_server()));
}

/* The one value of all the object's bytes. */
static uint8_t read_value(const char *path, const struct holder *reader)
{
    static struct message m;
    const uint8_t *result = reply + SIEVELAST_REPLY_HEAD_BYTES;
    build(&m, reader, SIEVELAST_READ, OBJECT_BYTES);
    expect("row of a read", 0, ask_patiently(path, &m));
    for (size_t i = 0; i < OBJECT_BYTES; i++)
        expect("a byte of a shape beside its first", result[0], result[i]);
    return result[0];
}

static void kills(char **words, const struct holder *writer, const struct holder *reader, uint64_t rounds)
{
    static struct message m;
    const char *path = words[2], *log = words[8];
    uint8_t value = 0;
    signal(SIGALRM, kill_server);
    for (uint64_t i = 0; i < rounds; i++) {
        start_server(words, log);
        stream(path, writer, &m, &value, 1000 + (long)random_below(20000));
        start_server(words, log);
        uint8_t there = read_value(path, reader);
        if (there != value)
            expect("value after a kill, the one granted last", (uint8_t)(value - 1), there);
        expect("row of the frame in flight, sent again", there == value ? SIEVELAST_ROW_REPLAYED : 0, ask_patiently(path, &m));
        expect("value after that", value, read_value(path, reader));
        kill(server, SIGTERM);
        expect("status of a server that was asked to end", 0, (uint64_t)end_of_server());
    }
    printf("%u shapes sent\n", value);
}

/* The plays with MEMBER, or without one where it may be left out; whether the command is one of them. */
static int play_group(const char *command, int count, char **words)
{
    struct holder h;
    if ((count == 5 || count == 6) && !strcmp(command, "overlong")) {
        h = count == 6 ? load_member(words + 3, words[5]) : load_holder(words + 3);
        overlong(words[2], &h);
    } else if (count == 6 && !strcmp(command, "member")) {
        h = load_member(words + 3, words[5]);
        write_member(words[2], &h);
    } else {
        return 0;
    }
    return 1;
}

int main(int count, char **words)
{
    const char *command = count > 2 ? words[1] : "";
    struct holder one, two;
    if (count == 3 && !strcmp(command, "messages")) {
        messages(words[2]);
    } else if (count == 4 && !strcmp(command, "junk")) {
        seed = wire_number(words[3], UINT32_MAX) + 1;
        junk(words[2]);
    } else if (count == 6 && !strcmp(command, "flood")) {
        one = load_holder(words + 3);
        flood(words[2], &one, wire_number(words[5], UINT32_MAX));
    } else if (count == 6 && !strcmp(command, "stall")) {
        one = load_holder(words + 3);
        stall(words[2], &one, wire_number(words[5], UINT32_MAX));
    } else if (count == 7 && !strcmp(command, "crowd")) {
        one = load_holder(words + 3);
        crowd(words[2], &one, (int)wire_number(words[5], 1000), wire_number(words[6], UINT32_MAX));
        idle_crowd(words[2], (int)wire_number(words[5], 1000), wire_number(words[6], UINT32_MAX));
    } else if (count == 7 && !strcmp(command, "parts")) {
        one = load_holder(words + 3);
        two = load_holder(words + 5);
        parts(words[2], &one, &two);
    } else if (count == 6 && !strcmp(command, "old")) {
        one = load_holder(words + 3);
        age = wire_number(words[5], SIEVELAST_TIME_WINDOW);
        old(words[2], &one);
    } else if (count == 11 && !strcmp(command, "kills")) {
        one = load_holder(words + 5);
        two = load_holder(words + 7);
        kills(words + 2, &one, &two, wire_number(words[9], 1000));
    } else if (!play_group(command, count, words)) {
        wire_wrong("usage", "clients messages|junk|flood|overlong|stall|crowd|parts|old|member|kills ..: see the top of clients.c");
    }
    return 0;
}
