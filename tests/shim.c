/* Stands before the C library where tests/command loads it: reads and writes that are interrupted every second time and
 * cut short else, and a system without randomness. */
#define _GNU_SOURCE
#include <errno.h>
#include <stdio.h>
#include <sys/syscall.h>
#include <unistd.h>

static int turn;

static int interrupted(void) {
    errno = EINTR;
    return turn++ % 2;
}

ssize_t write(int to, const void *bytes, size_t length) {
    return interrupted() ? -1 : syscall(SYS_write, to, bytes, length < 1000 ? length : 1000);
}

ssize_t read(int from, void *bytes, size_t length) {
    return interrupted() ? -1 : syscall(SYS_read, from, bytes, length < 1000 ? length : 1000);
}

FILE *fopen(const char *name, const char *mode) {
    (void)name, (void)mode;
    errno = ENOENT;
    return NULL;
}
