/*
 * For LD_PRELOAD: keeps a log of a program's calls, and at one of them ends the program or lets the call fail, so that
 * a test can see what is left after every one of them.
 */

/*
 * Counted, from 1, are the calls that open, write, sync, lock, name, take a name off, or set the owner or the rights of
 * what is in the folder RACK_FOLDER or of that folder, told by whole paths, and writes to standard output. The log is
 * the file RACK_LOG, a line for each: 'number call path second-path result', '-' for no second path; the result is what
 * the call gave, less than 0 for an error. At the call number RACK_AT it does what RACK_DO says:
 *   kill        ends the program before the call        kill-after  ends it when the call is done
 *   half        writes half of the bytes, then ends it  short       writes half of the bytes, and goes on
 *   fail=N      the call fails with error N             dead=N      it and all later ones in the folder do
 *   hold        says 'held' on standard error, and stays there
 * A sync is noted and not made: a killed program's bytes stay with the system all the same, and thousands of syncs take
 * minutes on a slow disk. What could write past the count is not let through: the program ends with a sentence.
 */
#define _GNU_SOURCE
#include <errno.h>
#include <fcntl.h>
#include <limits.h>
#include <signal.h>
#include <stdarg.h>
#include <stdio.h>
#include <stdlib.h>
#include <string.h>
#include <sys/syscall.h>
#include <sys/uio.h>
#include <unistd.h>

enum { KILLED = -1000 }; /* in the log: the call was not made */

static const char *const OUT = "stdout";
static const char *folder = "", *what = "";
static long at, counted;
static int to_log = -1;

__attribute__((constructor)) static void begin(void)
{
    const char *number = getenv("RACK_AT"), *name = getenv("RACK_LOG");
    folder = getenv("RACK_FOLDER");
    what = getenv("RACK_DO");
    if (!number || !name || !folder || !what)
        abort();
    at = atol(number);
    int first = (int)syscall(SYS_openat, AT_FDCWD, name, O_WRONLY | O_CREAT | O_APPEND | O_CLOEXEC, 0666);
    /* Out of the way of the numbers that the program's files have without this library. */
    to_log = fcntl(first, F_DUPFD_CLOEXEC, 100);
    if (to_log < 0)
        abort();
    close(first);
}

static int is(const char *way)
{
    return counted == at && strcmp(what, way) == 0;
}

/* Whether a path is the folder, or is in it. */
static int is_inside(const char *path)
{
    size_t length = strlen(folder);
    return strncmp(path, folder, length) == 0 && (path[length] == '/' || path[length] == 0);
}

/* The path of an open file that is counted; none for another. */
static const char *path_of(int file, char room[PATH_MAX])
{
    char link[40];
    if (file == STDOUT_FILENO)
        return OUT;
    snprintf(link, sizeof link, "/proc/self/fd/%d", file);
    ssize_t length = readlink(link, room, PATH_MAX - 1);
    if (length < 0)
        return NULL;
    room[length] = 0;
    /* A file without a name has ' (deleted)' behind its old one, and the log has no room for spaces. */
    room[strcspn(room, " ")] = 0;
    return is_inside(room) ? room : NULL;
}

static void end(void)
{
    syscall(SYS_kill, getpid(), SIGKILL);
    for (;;)
        pause();
}

static void note(const char *call, const char *path, const char *second, long result)
{
    char line[2 * PATH_MAX + 100];
    int length = snprintf(line, sizeof line, "%ld %s %s %s %ld\n", counted, call, path, second ? second : "-", result);
    if (syscall(SYS_write, to_log, line, length) != length)
        abort();
}

/* The error that a call is to fail with, or 0. */
static int wanted(const char *path)
{
    if (counted == at && strncmp(what, "fail=", 5) == 0)
        return atoi(what + 5);
    if (at && counted >= at && path != OUT && strncmp(what, "dead=", 5) == 0)
        return atoi(what + 5);
    return 0;
}

/* Counts a call before it is made. Returns whether it is to fail; its error is set then. */
static int fails(const char *call, const char *path, const char *second)
{
    counted++;
    if (is("kill")) {
        note(call, path, second, KILLED);
        end();
    }
    if (is("hold")) {
        note(call, path, second, KILLED);
        syscall(SYS_write, STDERR_FILENO, "held\n", 5);
        for (;;)
            pause();
    }
    int error = wanted(path);
    if (error)
        errno = error;
    return error != 0;
}

/* Notes what a call gave, and gives it on. */
static long done(const char *call, const char *path, const char *second, long result)
{
    int error = errno;
    note(call, path, second, result < 0 ? -error : result);
    if (is("kill-after") || is("half"))
        end();
    errno = error;
    return result;
}

/* How an opening is told: what it does to the file. */
static const char *opening(int how)
{
    return how & O_TRUNC ? "empty" : how & O_CREAT ? "create" : "open";
}

static int opened(int from, const char *path, int how, mode_t mode)
{
    if (!is_inside(path))
        return (int)syscall(SYS_openat, from, path, how, mode);
    const char *call = opening(how);
    int failed = fails(call, path, NULL);
    return (int)done(call, path, NULL, failed ? -1 : syscall(SYS_openat, from, path, how, mode));
}

/* The rights of a new file stand behind the other arguments, if there are any. */
#define MODE(mode, how)                        \
    mode_t mode = 0;                           \
    if ((how) & (O_CREAT | __O_TMPFILE)) {     \
        va_list rest;                          \
        va_start(rest, how);                   \
        mode = va_arg(rest, mode_t);           \
        va_end(rest);                          \
    }

int open(const char *path, int how, ...)
{
    MODE(mode, how)
    return opened(AT_FDCWD, path, how, mode);
}

int open64(const char *path, int how, ...)
{
    MODE(mode, how)
    return opened(AT_FDCWD, path, how | O_LARGEFILE, mode);
}

int openat(int from, const char *path, int how, ...)
{
    MODE(mode, how)
    return opened(from, path, how, mode);
}

int openat64(int from, const char *path, int how, ...)
{
    MODE(mode, how)
    return opened(from, path, how | O_LARGEFILE, mode);
}

ssize_t write(int file, const void *bytes, size_t length)
{
    char room[PATH_MAX];
    const char *path = path_of(file, room);
    if (!path)
        return syscall(SYS_write, file, bytes, length);
    int failed = fails("write", path, NULL);
    if (is("half") || is("short"))
        length /= 2;
    return done("write", path, NULL, failed ? -1 : syscall(SYS_write, file, bytes, length));
}

/* A call on an open file: counted if the file is, made, and noted. */
#define ON_FILE(name, call)                                       \
    do {                                                          \
        char room[PATH_MAX];                                      \
        const char *path = path_of(file, room);                   \
        if (!path)                                                \
            return (int)(call);                                   \
        int failed = fails(name, path, NULL);                     \
        return (int)done(name, path, NULL, failed ? -1 : (call)); \
    } while (0)

int fsync(int file)
{
    ON_FILE("fsync", 0);
}

int fdatasync(int file)
{
    ON_FILE("fsync", 0);
}

int fchmod(int file, mode_t mode)
{
    ON_FILE("fchmod", syscall(SYS_fchmod, file, mode));
}

int fchown(int file, uid_t owner, gid_t group)
{
    ON_FILE("fchown", syscall(SYS_fchown, file, owner, group));
}

int flock(int file, int how)
{
    ON_FILE("flock", syscall(SYS_flock, file, how));
}

int rename(const char *old, const char *path)
{
    if (!is_inside(old) && !is_inside(path))
        return (int)syscall(SYS_renameat2, AT_FDCWD, old, AT_FDCWD, path, 0);
    int failed = fails("rename", old, path);
    return (int)done("rename", old, path, failed ? -1 : syscall(SYS_renameat2, AT_FDCWD, old, AT_FDCWD, path, 0));
}

int linkat(int from, const char *old, int to, const char *path, int how)
{
    if (!is_inside(old) && !is_inside(path))
        return (int)syscall(SYS_linkat, from, old, to, path, how);
    int failed = fails("link", old, path);
    return (int)done("link", old, path, failed ? -1 : syscall(SYS_linkat, from, old, to, path, how));
}

int link(const char *old, const char *path)
{
    return linkat(AT_FDCWD, old, AT_FDCWD, path, 0);
}

int unlink(const char *path)
{
    if (!is_inside(path))
        return (int)syscall(SYS_unlinkat, AT_FDCWD, path, 0);
    int failed = fails("unlink", path, NULL);
    return (int)done("unlink", path, NULL, failed ? -1 : syscall(SYS_unlinkat, AT_FDCWD, path, 0));
}

/* What the program is not known to call. If it does one day, the count has to learn of it. */
static long unknown(const char *call)
{
    dprintf(STDERR_FILENO, "the shim does not count %s\n", call);
    _exit(99);
}

#define UNKNOWN(type, call, ...)       \
    type call(__VA_ARGS__)             \
    {                                  \
        return (type)unknown(#call);   \
    }

#pragma GCC diagnostic ignored "-Wunused-parameter"
UNKNOWN(ssize_t, writev, int file, const struct iovec *rows, int many)
UNKNOWN(ssize_t, pwrite, int file, const void *bytes, size_t length, off_t from)
UNKNOWN(ssize_t, pwrite64, int file, const void *bytes, size_t length, off64_t from)
UNKNOWN(int, ftruncate, int file, off_t length)
UNKNOWN(int, ftruncate64, int file, off64_t length)
UNKNOWN(int, truncate, const char *path, off_t length)
UNKNOWN(int, renameat, int from, const char *old, int to, const char *path)
UNKNOWN(int, unlinkat, int from, const char *path, int how)
