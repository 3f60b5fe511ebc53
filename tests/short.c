/* Loaded before the C library: standard output takes ROOM bytes in all, and then each write to it fails. */
#define _GNU_SOURCE
#include <dlfcn.h>
#include <errno.h>
#include <stdlib.h>
#include <unistd.h>

static ssize_t room = -1;

ssize_t write(int descriptor, const void *bytes, size_t length) {
    static ssize_t (*real)(int, const void *, size_t);
    if (!real) real = (ssize_t(*)(int, const void *, size_t))dlsym(RTLD_NEXT, "write");
    if (descriptor != STDOUT_FILENO) return real(descriptor, bytes, length);
    if (room < 0) room = getenv("ROOM") ? atol(getenv("ROOM")) : 0;
    if (room == 0 && length > 0) {
        errno = EIO;
        return -1;
    }
    ssize_t written = real(descriptor, bytes, length < (size_t)room ? length : (size_t)room);
    if (written > 0) room -= written;
    return written;
}
