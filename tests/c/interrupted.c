/* A library to preload (LD_PRELOAD): of each read of standard input the first tries fail, as if a signal had interrupted
   them, INTERRUPTED of them. With FAILS set the read after so many whole ones fails for good. */
#define _GNU_SOURCE
#include <errno.h>
#include <stdlib.h>
#include <sys/syscall.h>
#include <unistd.h>

static long number(const char *name, long otherwise)
{
    const char *text = getenv(name);
    return text ? atol(text) : otherwise;
}

ssize_t read(int fd, void *space, size_t size)
{
    static long tries, reads;

    if (fd != 0)
        return syscall(SYS_read, fd, space, size);
    if (reads == number("FAILS", -1)) {
        errno = EIO;
        return -1;
    }
    if (tries < number("INTERRUPTED", 0)) {
        tries++;
        errno = EINTR;
        return -1;
    }
    tries = 0;
    reads++;
    return syscall(SYS_read, fd, space, size > 7 ? 7 : size);
}
