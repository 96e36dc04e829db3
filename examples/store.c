/* A small store: Sievelast's drive in a file, behind a Unix socket.
 *
 *   store format FILE BYTES MASTER KEY               makes FILE: a drive's record and a medium of BYTES bytes
 *   store serve [-s] [-t MILLISECONDS] FILE SOCKET   answers frames until SIGTERM or SIGINT
 *   store send SOCKET < frame > reply                sends one frame; standard error has the row
 *
 * MASTER and KEY are files of 32 bytes; FILE is made with mode 600, for it holds the drive's keys. wire.h has the messages. Who may
 * connect is what the mode of SOCKET says, which follows the umask; a stranger gets rows. drive_file.h has what a stop in the middle
 * of a call leaves; with -s a power cut is taken as a stop: each call waits for the disk.
 * Build: cc -Iinclude examples/store.c target/staticlib/libstore.a
 *
 * A client has the time of -t for each message: to begin it, and from its first byte until the answer is taken. It holds one
 * place of MOST_CLIENTS and one buffer, nothing is allocated, and a round of the loop gives each client one read, one call of the
 * gate and one write at most. Where all places are taken, others wait at the door, and a client that has its answer makes room.
 */
#include "drive_file.h"
#include <libgen.h>
#include <poll.h>
#include <signal.h>
#include <sys/resource.h>
#include <sys/signalfd.h>

#define MOST_CLIENTS 32
#define OTHER_FILES 16      /* that the process may have open beside its clients */
#define TIMEOUT 10000       /* milliseconds */
#define DOOR MOST_CLIENTS   /* where poll looks: at each client, then at the door and for the end */
#define ENDING (DOOR + 1)
#define LOOKS (ENDING + 1)
#define SPACE (WIRE_ANSWER_HEAD + SIEVELAST_MOST_REPLY_BYTES)

/* A message comes in to `bytes`, then its answer goes out from there. */
struct client {
    int socket; /* -1: the place is free */
    int answered;
    int last;            /* the connection ends with this answer */
    size_t moved, whole; /* bytes of the message or answer */
    uint64_t deadline;
    uint8_t bytes[SPACE];
};

static struct drive_map drive;
static uint64_t timeout = TIMEOUT;
static int door;
static int ending; /* readable once SIGTERM or SIGINT has come */
static struct client clients[MOST_CLIENTS];

/* ---- a client */
static uint64_t new_deadline(void)
{
    return wire_milliseconds(CLOCK_MONOTONIC) + timeout;
}

static void await_message(struct client *c)
{
    c->answered = c->last = 0;
    c->moved = 0;
    c->whole = WIRE_FRAME_HEAD;
    c->deadline = new_deadline();
}

static void drop(struct client *c)
{
    close(c->socket);
    c->socket = -1;
}

/* The message in a client's buffer gives way to its answer. */
static void answer(struct client *c)
{
    struct sievelast_answered a = drive_file_call(&drive, c->bytes + WIRE_FRAME_HEAD, c->whole - WIRE_FRAME_HEAD,
                                                  wire_milliseconds(CLOCK_REALTIME), c->bytes + WIRE_ANSWER_HEAD);
    wire_put4(c->bytes, (uint32_t)a.row);
    wire_put4(c->bytes + 4, (uint32_t)a.length);
    c->answered = 1;
    c->moved = 0;
    c->whole = WIRE_ANSWER_HEAD + a.length;
}

/* Whether somebody waits for a place. The loop does not watch the door while there is none. */
static int crowded(void)
{
    struct pollfd look = {.fd = door, .events = POLLIN};
    for (int i = 0; i < MOST_CLIENTS; i++)
        if (clients[i].socket < 0)
            return 0;
    return poll(&look, 1, 0) > 0;
}

/* Gives what the client takes of its answer; 0 when the client is to go. */
static int give(struct client *c)
{
    ssize_t gone = write(c->socket, c->bytes + c->moved, c->whole - c->moved);
    if (gone < 0)
        return errno == EAGAIN || errno == EINTR;
    c->moved += (size_t)gone;
    if (c->moved < c->whole)
        return 1;
    if (c->last || crowded())
        return 0;
    await_message(c);
    return 1;
}

/* Takes what is there of a message, and answers one that is whole; 0 when the client is to go. Of a frame over the bound only the
 * start is read, which is enough to answer it; as the rest is still on its way, the connection ends with that answer. */
static int take(struct client *c)
{
    ssize_t got = read(c->socket, c->bytes + c->moved, c->whole - c->moved);
    if (got <= 0)
        return got < 0 && (errno == EAGAIN || errno == EINTR);
    if (c->moved == 0)
        c->deadline = new_deadline();
    c->moved += (size_t)got;
    if (c->moved == WIRE_FRAME_HEAD) {
        uint32_t length = wire_get4(c->bytes);
        c->last = length > DRIVE_FILE_BOUND;
        c->whole += c->last ? DRIVE_FILE_BOUND : length;
    }
    if (c->moved < c->whole)
        return 1;
    answer(c);
    return give(c);
}

/* ---- the loop */
static void admit(void)
{
    int s = accept4(door, NULL, NULL, SOCK_NONBLOCK | SOCK_CLOEXEC);
    for (int i = 0; s >= 0 && i < MOST_CLIENTS; i++)
        if (clients[i].socket < 0) {
            clients[i].socket = s;
            await_message(&clients[i]);
            return;
        }
}

/* What to wait for: each client's next bytes, the door while there is a place, the end. Clients past their deadline go. Returns the
 * milliseconds to the next deadline. */
static int look_out(struct pollfd looks[LOOKS])
{
    uint64_t now = wire_milliseconds(CLOCK_MONOTONIC), wait = timeout;
    looks[DOOR] = (struct pollfd){.fd = -1, .events = POLLIN};
    looks[ENDING] = (struct pollfd){.fd = ending, .events = POLLIN};
    for (int i = 0; i < MOST_CLIENTS; i++) {
        struct client *c = &clients[i];
        if (c->socket >= 0 && c->deadline <= now)
            drop(c);
        if (c->socket < 0)
            looks[DOOR].fd = door;
        else if (c->deadline - now < wait)
            wait = c->deadline - now;
        looks[i] = (struct pollfd){.fd = c->socket, .events = c->answered ? POLLOUT : POLLIN};
    }
    return (int)wait;
}

static void serve_clients(void)
{
    struct pollfd looks[LOOKS];
    do {
        if (poll(looks, LOOKS, look_out(looks)) < 0 && errno != EINTR)
            wire_fail("poll");
        for (int i = 0; i < MOST_CLIENTS; i++)
            if (looks[i].revents && !(clients[i].answered ? give(&clients[i]) : take(&clients[i])))
                drop(&clients[i]);
        if (looks[DOOR].revents)
            admit();
    } while (!looks[ENDING].revents);
}

/* SIGTERM and SIGINT are looked for after each round, however busy it was, and so never end a call. */
static void arrange_signals(void)
{
    sigset_t both;
    sigemptyset(&both);
    sigaddset(&both, SIGTERM);
    sigaddset(&both, SIGINT);
    ending = sigprocmask(SIG_BLOCK, &both, NULL) ? -1 : signalfd(-1, &both, SFD_CLOEXEC);
    if (ending < 0 || signal(SIGPIPE, SIG_IGN) == SIG_ERR)
        wire_fail("signals");
}

/* Removes the socket that a dead server left; not one that a server listens at, nor a file of another kind. */
static void clear_way(const char *path)
{
    struct stat s;
    int other = wire_connect(path, SOCK_NONBLOCK);
    if (other < 0 && errno == ENOENT)
        return;
    if (other >= 0 || errno != ECONNREFUSED)
        wire_wrong(path, "another server listens there");
    if (lstat(path, &s) || !S_ISSOCK(s.st_mode))
        wire_wrong(path, "there is a file that is no socket");
    if (unlink(path))
        wire_fail(path);
}

/* Opens the door, under a lock of its directory: a server that starts at the same moment would take our socket for a dead one. */
static void open_door(const char *path)
{
    struct sockaddr_un a = wire_address(path);
    char copy[sizeof a.sun_path];
    memcpy(copy, a.sun_path, sizeof copy);
    int lock = open(dirname(copy), O_RDONLY | O_DIRECTORY | O_CLOEXEC);
    if (lock < 0 || flock(lock, LOCK_EX))
        wire_fail(path);
    clear_way(path);
    door = socket(AF_UNIX, SOCK_STREAM | SOCK_NONBLOCK | SOCK_CLOEXEC, 0);
    if (door < 0 || bind(door, (struct sockaddr *)&a, sizeof a) || listen(door, MOST_CLIENTS))
        wire_fail(path);
    close(lock);
}

/* ---- the commands */
static int serve(const char *name, const char *path)
{
    struct rlimit most;
    if (getrlimit(RLIMIT_NOFILE, &most) || most.rlim_cur < MOST_CLIENTS + OTHER_FILES)
        wire_wrong("open files", "the limit is too low for all clients");
    int synced = drive.synced;
    drive = drive_file_open(name);
    drive.synced = synced;
    arrange_signals();
    if (drive_file_under_way(&drive)) {
        drive_file_finish(&drive, clients[0].bytes);
        fprintf(stderr, "a call that a stop had broken off is done again\n");
    }
    for (int i = 0; i < MOST_CLIENTS; i++)
        clients[i].socket = -1;
    open_door(path);
    fprintf(stderr, "serving %s at %s\n", name, path);
    serve_clients();
    unlink(path);
    fprintf(stderr, "stopped\n");
    return 0;
}

static int format(const char *name, const char *bytes, const char *master_name, const char *key_name)
{
    uint8_t master[SIEVELAST_KEY_BYTES + 1], key[SIEVELAST_KEY_BYTES + 1]; /* a longer key shows, and is refused */
    size_t master_len = wire_load(master_name, master, sizeof master), key_len = wire_load(key_name, key, sizeof key);
    uint64_t size = wire_number(bytes, UINT64_MAX);
    if (size > SIEVELAST_MOST_MEDIUM_BYTES)
        size = SIEVELAST_MOST_MEDIUM_BYTES + 1; /* refused all the same */
    uint64_t row = drive_file_make(name, size, master, master_len, key, key_len);
    if (row)
        wire_refused("not formatted", row);
    printf("formatted %s: %" PRIu64 " bytes, four partitions of %" PRIu64 "\n", name, size, size / SIEVELAST_PARTITIONS);
    return 0;
}

static int send_one(const char *path)
{
    static uint8_t frame[2 * DRIVE_FILE_BOUND], reply[SIEVELAST_MOST_REPLY_BYTES];
    size_t n = fread(frame, 1, sizeof frame, stdin);
    struct wire_answer a = wire_ask(path, frame, n, reply, sizeof reply);
    if (a.row)
        wire_refused("refused", a.row);
    fprintf(stderr, "granted\n");
    return fwrite(reply, 1, a.length, stdout) == a.length && fflush(stdout) == 0 ? 0 : 2;
}

int main(int count, char **words)
{
    const char *command = count > 1 ? words[1] : "";
    int option, usage = 0;
    optind = 2;
    while (count > 1 && (option = getopt(count, words, "+st:")) != -1) {
        drive.synced |= option == 's';
        if (option == 't')
            timeout = wire_number(optarg, INT32_MAX);
        usage |= option == '?';
    }
    words += optind;
    count -= optind;
    if (!usage && count == 4 && !strcmp(command, "format"))
        return format(words[0], words[1], words[2], words[3]);
    if (!usage && count == 2 && !strcmp(command, "serve"))
        return serve(words[0], words[1]);
    if (!usage && count == 1 && !strcmp(command, "send"))
        return send_one(words[0]);
    fprintf(stderr, "usage: store format FILE BYTES MASTER KEY | serve [-s] [-t MILLISECONDS] FILE SOCKET | send SOCKET\n");
    return 2;
}
