/* The calls `read` of standard input and `write` of standard output, to be preloaded. Each moves at most READ_PIECE
   or WRITE_PIECE bytes; call number READ_FAILS or WRITE_FAILS, counted from 0, fails; and standard output takes
   WRITE_ROOM bytes in all. A variable that is not set limits nothing. */
#define _GNU_SOURCE
#include <dlfcn.h>
#include <errno.h>
#include <limits.h>
#include <stdlib.h>
#include <sys/types.h>

static long reads, writes, written;

static long limit(const char *name) {
    const char *number = getenv(name);
    return number ? atol(number) : LONG_MAX;
}

static size_t least(size_t count, long most) {
    return count < (size_t)most ? count : (size_t)most;
}

static ssize_t failed(int cause) {
    errno = cause;
    return -1;
}

ssize_t read(int file, void *into, size_t count) {
    ssize_t (*real_read)(int, void *, size_t) = dlsym(RTLD_NEXT, "read");
    if (file != 0)
        return real_read(file, into, count);
    if (reads++ == limit("READ_FAILS"))
        return failed(EIO);
    return real_read(file, into, least(count, limit("READ_PIECE")));
}

ssize_t write(int file, const void *bytes, size_t count) {
    ssize_t (*real_write)(int, const void *, size_t) = dlsym(RTLD_NEXT, "write");
    if (file != 1)
        return real_write(file, bytes, count);
    if (writes++ == limit("WRITE_FAILS"))
        return failed(EIO);
    long left = limit("WRITE_ROOM") - written;
    if (left == 0)
        return failed(ENOSPC);
    ssize_t taken = real_write(file, bytes, least(least(count, limit("WRITE_PIECE")), left));
    if (taken > 0)
        written += taken;
    return taken;
}
