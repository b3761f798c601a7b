/* Preloaded before a program: the reads from its standard input and the writes to its standard output go by the lists READS and WRITES of its environment, a number
   for each call, parted by commas. 0 moves at most 5 bytes, any other number is the error that the call fails with. Calls behind the list move what they can. */
#define _GNU_SOURCE
#include <errno.h>
#include <stdlib.h>
#include <sys/syscall.h>
#include <unistd.h>

/* The next number of a list, -1 behind its end. */
static int next(const char *name, const char **rest)
{
    if (!*rest) {
        const char *list = getenv(name);
        *rest = list ? list : "";
    }
    if (!**rest)
        return -1;
    char *end;
    int number = (int)strtol(*rest, &end, 10);
    *rest = *end ? end + 1 : end;
    return number;
}

static ssize_t move(int error, long call, int fd, void *bytes, size_t size)
{
    if (error > 0) {
        errno = error;
        return -1;
    }
    return syscall(call, fd, bytes, error == 0 && size > 5 ? 5 : size);
}

ssize_t read(int fd, void *bytes, size_t size)
{
    static const char *rest;
    return move(fd == 0 ? next("READS", &rest) : -1, SYS_read, fd, bytes, size);
}

ssize_t write(int fd, const void *bytes, size_t size)
{
    static const char *rest;
    return move(fd == 1 ? next("WRITES", &rest) : -1, SYS_write, fd, (void *)bytes, size);
}
