// Preloaded before a program: writes to the file RECORD, in their order, the calls by which the program opens, writes,
// cuts, syncs, renames and closes files, and its writes to its output and its sockets. Before each call's bytes stands its
// head.
// A call that would change files in a way that is not recorded ends the program.
#define _GNU_SOURCE
#include <dlfcn.h>
#include <errno.h>
#include <fcntl.h>
#include <stdarg.h>
#include <stdint.h>
#include <stdio.h>
#include <stdlib.h>
#include <string.h>
#include <sys/socket.h>
#include <sys/stat.h>
#include <sys/uio.h>
#include <unistd.h>

#define REAL(name) ((__typeof__(&name))real(#name))

struct head {
    int32_t kind, file;
    int64_t at, size;
};

static int record = -1;

static void *real(const char *name) {
    void *found = dlsym(RTLD_NEXT, name);
    if (!found) abort();
    return found;
}

__attribute__((constructor)) static void begin(void) {
    const char *path = getenv("RECORD");
    if (!path) abort();
    // far above the numbers of the files that the program opens
    int file = REAL(open)(path, O_WRONLY | O_CREAT | O_TRUNC, 0600);
    record = fcntl(file, F_DUPFD_CLOEXEC, 500);
    if (record < 0) abort();
    REAL(close)(file);
}

static void note(char kind, int file, int64_t at, const void *bytes, size_t size) {
    int before = errno;
    struct head head = {kind, file, at, (int64_t)size};
    struct iovec parts[2] = {{&head, sizeof head}, {(void *)bytes, size}};
    if (REAL(writev)(record, parts, 2) != (ssize_t)(sizeof head + size)) abort();
    errno = before;
}

// Notes an opened file with its path, and whether it was there before.
static int opened(int file, const char *path, int was_there) {
    if (file >= 0) note('o', file, was_there, path, strlen(path));
    return file;
}

// Says whether a path is there.
static int is_there(int folder, const char *path) {
    struct stat found;
    int before = errno, there = fstatat(folder, path, &found, AT_SYMLINK_NOFOLLOW) == 0;
    errno = before;
    return there;
}

#define OPEN(name)                                              \
    int name(const char *path, int flags, ...) {                \
        va_list more;                                           \
        va_start(more, flags);                                  \
        mode_t mode = flags & O_CREAT ? va_arg(more, mode_t) : 0; \
        va_end(more);                                           \
        int there = is_there(AT_FDCWD, path);                   \
        return opened(REAL(name)(path, flags, mode), path, there); \
    }
OPEN(open)
OPEN(open64)

#define OPENAT(name)                                            \
    int name(int folder, const char *path, int flags, ...) {    \
        va_list more;                                           \
        va_start(more, flags);                                  \
        mode_t mode = flags & O_CREAT ? va_arg(more, mode_t) : 0; \
        va_end(more);                                           \
        int there = is_there(folder, path);                     \
        return opened(REAL(name)(folder, path, flags, mode), path, there); \
    }
OPENAT(openat)
OPENAT(openat64)

#define PWRITE(name, offset)                                    \
    ssize_t name(int file, const void *bytes, size_t size, offset at) { \
        ssize_t done = REAL(name)(file, bytes, size, at);       \
        if (done > 0) note('w', file, at, bytes, done);         \
        return done;                                            \
    }
PWRITE(pwrite, off_t)
PWRITE(pwrite64, off64_t)

#define CUT(name, offset)                                       \
    int name(int file, offset size) {                           \
        int done = REAL(name)(file, size);                      \
        if (!done) note('t', file, size, "", 0);                \
        return done;                                            \
    }
CUT(ftruncate, off_t)
CUT(ftruncate64, off64_t)

#define SYNC(name)                                              \
    int name(int file) {                                        \
        int done = REAL(name)(file);                            \
        if (!done) note('s', file, 0, "", 0);                   \
        return done;                                            \
    }
SYNC(fsync)
SYNC(fdatasync)

// Notes the path of a file and the one that it gets.
int rename(const char *from, const char *to) {
    int done = REAL(rename)(from, to);
    if (!done) {
        char both[8192];
        int size = snprintf(both, sizeof both, "%s%c%s", from, 0, to);
        if (size < 0 || size >= (int)sizeof both) abort();
        note('r', -1, 0, both, size);
    }
    return done;
}

int close(int file) {
    int done = REAL(close)(file);
    if (!done) note('c', file, 0, "", 0);
    return done;
}

ssize_t write(int file, const void *bytes, size_t size) {
    ssize_t done = REAL(write)(file, bytes, size);
    if (done > 0) note('p', file, 0, bytes, done);
    return done;
}

static ssize_t wrote(int file, const struct iovec *parts, size_t count, ssize_t done) {
    ssize_t left = done;
    for (size_t i = 0; i < count && left > 0; i++) {
        ssize_t size = left < (ssize_t)parts[i].iov_len ? left : (ssize_t)parts[i].iov_len;
        note('p', file, 0, parts[i].iov_base, size);
        left -= size;
    }
    return done;
}

ssize_t writev(int file, const struct iovec *parts, int count) {
    return wrote(file, parts, count, REAL(writev)(file, parts, count));
}

ssize_t send(int file, const void *bytes, size_t size, int flags) {
    struct iovec whole = {(void *)bytes, size};
    return wrote(file, &whole, 1, REAL(send)(file, bytes, size, flags));
}

ssize_t sendmsg(int file, const struct msghdr *message, int flags) {
    return wrote(file, message->msg_iov, message->msg_iovlen, REAL(sendmsg)(file, message, flags));
}

#define UNRECORDED(name)                                                   \
    int unrecorded_##name(void) __asm__(#name);                            \
    int unrecorded_##name(void) {                                          \
        static const char said[] = "record.c does not record " #name "\n"; \
        REAL(write)(2, said, sizeof said - 1);                             \
        abort();                                                           \
    }
UNRECORDED(copy_file_range)
UNRECORDED(creat)
UNRECORDED(fallocate)
UNRECORDED(link)
UNRECORDED(msync)
UNRECORDED(posix_fallocate)
UNRECORDED(pwritev)
UNRECORDED(renameat)
UNRECORDED(renameat2)
UNRECORDED(sendfile)
UNRECORDED(sync_file_range)
UNRECORDED(truncate)
UNRECORDED(unlink)
UNRECORDED(unlinkat)
