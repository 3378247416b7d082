/* Reads and writes with faults, to be loaded before the C library's. FAULT says which:
 *   interrupted   every other call is interrupted by a signal
 *   would-block   every other call would wait
 *   little        a call moves at most 7 bytes
 *   read, write   the call number FAULT_AT, counted from 1 over the calls of that kind, and those behind it fail
 *   nothing       the write number FAULT_AT takes nothing
 * Standard error is left alone. */
#define _GNU_SOURCE
#include <dlfcn.h>
#include <errno.h>
#include <stdlib.h>
#include <string.h>
#include <unistd.h>

typedef ssize_t (*read_call)(int, void *, size_t);
typedef ssize_t (*write_call)(int, const void *, size_t);

static int reads;
static int writes;

/* How a call of this kind goes: 1 it is made, 0 it takes nothing, -1 it fails with errno set. */
static int goes(const char *kind, int number, size_t *length)
{
    const char *fault = getenv("FAULT");
    const char *at = getenv("FAULT_AT");
    if (fault == NULL)
        return 1;
    if (strcmp(fault, "interrupted") == 0 && number % 2 == 1) {
        errno = EINTR;
        return -1;
    }
    if (strcmp(fault, "would-block") == 0 && number % 2 == 1) {
        errno = EAGAIN;
        return -1;
    }
    if (strcmp(fault, "little") == 0 && *length > 7)
        *length = 7;
    if (at == NULL || number < atoi(at))
        return 1;
    if (strcmp(fault, kind) == 0) {
        errno = EIO;
        return -1;
    }
    return strcmp(fault, "nothing") == 0 && strcmp(kind, "write") == 0 ? 0 : 1;
}

ssize_t read(int fd, void *buffer, size_t length)
{
    int how = goes("read", ++reads, &length);
    if (how < 1)
        return how;
    return ((read_call)dlsym(RTLD_NEXT, "read"))(fd, buffer, length);
}

ssize_t write(int fd, const void *buffer, size_t length)
{
    int how = fd == STDERR_FILENO ? 1 : goes("write", ++writes, &length);
    if (how < 1)
        return how;
    return ((write_call)dlsym(RTLD_NEXT, "write"))(fd, buffer, length);
}
