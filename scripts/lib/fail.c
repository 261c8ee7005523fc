// Preloaded before a program: makes each call of a kind fail with an error of the system. FAIL_OPEN, FAIL_READ, FAIL_WRITE
// and FAIL_SYNC have the number of the error for files that are opened to be written, reads at a place, writes at a place
// and changes of a length, and syncs. FAIL_SKIP has how many of these calls are let through first.
#define _GNU_SOURCE
#include <dlfcn.h>
#include <errno.h>
#include <fcntl.h>
#include <stdarg.h>
#include <stdlib.h>
#include <sys/types.h>
#include <unistd.h>

static int fails(const char *kind) {
    static long passed;
    const char *number = getenv(kind), *skip = getenv("FAIL_SKIP");
    if (!number || (skip && passed++ < atol(skip))) return 0;
    errno = atoi(number);
    return 1;
}

#define CALL(kind, type, name, parameters, arguments) \
    type name parameters { \
        static type(*real) parameters; \
        if (!real) real = (type(*) parameters)dlsym(RTLD_NEXT, #name); \
        return fails(kind) ? -1 : real arguments; \
    }

CALL("FAIL_READ", ssize_t, pread, (int fd, void *bytes, size_t size, off_t at), (fd, bytes, size, at))
CALL("FAIL_READ", ssize_t, pread64, (int fd, void *bytes, size_t size, off64_t at), (fd, bytes, size, at))
CALL("FAIL_WRITE", ssize_t, pwrite, (int fd, const void *bytes, size_t size, off_t at), (fd, bytes, size, at))
CALL("FAIL_WRITE", ssize_t, pwrite64, (int fd, const void *bytes, size_t size, off64_t at), (fd, bytes, size, at))
CALL("FAIL_WRITE", int, ftruncate, (int fd, off_t size), (fd, size))
CALL("FAIL_WRITE", int, ftruncate64, (int fd, off64_t size), (fd, size))
CALL("FAIL_SYNC", int, fsync, (int fd), (fd))
CALL("FAIL_SYNC", int, fdatasync, (int fd), (fd))

#define OPEN(name) \
    int name(const char *path, int flags, ...) { \
        static int (*real)(const char *, int, ...); \
        va_list rest; \
        va_start(rest, flags); \
        mode_t mode = flags & O_CREAT ? va_arg(rest, mode_t) : 0; \
        va_end(rest); \
        if (!real) real = (int (*)(const char *, int, ...))dlsym(RTLD_NEXT, #name); \
        return (flags & O_ACCMODE) != O_RDONLY && fails("FAIL_OPEN") ? -1 : real(path, flags, mode); \
    }

OPEN(open)
OPEN(open64)
