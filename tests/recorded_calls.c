/* Preloaded before a program, it writes down each call that changes or lists what lies below the folder RECORD_BELOW, one a line, to
   the file RECORD_LOG: the call, its path and what it was given, parted by tabs. A write is told with the bytes that the system took,
   in hexadecimal; only calls that succeeded are told. With FAIL_AT set, the call of that number, counted from 1 and with those that
   fail, goes wrong as FAIL_HOW has it: `EIO` and `EINTR` do nothing and answer so, the second one of calls that a signal may interrupt
   alone; `short` lets a write take half of its bytes. That a file which was there is opened, and that one is closed, is written down
   too, as `open` and `close`, and not counted. Reads of a file, and openings of one for reading, are counted apart: that of the number
   in READ_FAIL_AT answers EIO, and with RECORD_READS set they are written down, as `read`. */
#define _GNU_SOURCE
#include <dlfcn.h>
#include <errno.h>
#include <fcntl.h>
#include <stdarg.h>
#include <stdio.h>
#include <stdlib.h>
#include <string.h>
#include <sys/stat.h>
#include <sys/syscall.h>
#include <unistd.h>

#define MOST_FILES 1024

static char *paths[MOST_FILES];
static long calls = 0;
static long reads = 0;

/* whether a path lies below the folder that is watched */
static int is_watched(const char *path)
{
    const char *below = getenv("RECORD_BELOW");
    return below && path && strncmp(path, below, strlen(below)) == 0;
}

static const char *path_of(int file)
{
    return file >= 0 && file < MOST_FILES ? paths[file] : NULL;
}

static void put(int log, const char *text)
{
    syscall(SYS_write, log, text, strlen(text));
}

/* Writes a call down; `bytes` are told where there are any. */
static void record(const char *call, const char *path, const unsigned char *bytes, size_t len, long number)
{
    const char *name = getenv("RECORD_LOG");
    if (!name || !path)
        return;
    int log = syscall(SYS_openat, AT_FDCWD, name, O_WRONLY | O_APPEND | O_CREAT | O_CLOEXEC, 0600);
    char text[64];
    put(log, call);
    put(log, "\t");
    put(log, path);
    put(log, "\t");
    if (number >= 0) {
        snprintf(text, sizeof text, "%ld", number);
        put(log, text);
    }
    for (size_t i = 0; i < len; i++) {
        snprintf(text, sizeof text, "%02x", bytes[i]);
        put(log, text);
    }
    put(log, "\n");
    syscall(SYS_close, log);
}

/* Whether the call that was counted last is to go wrong so. */
static int goes_wrong(const char *path, const char *how)
{
    const char *at = getenv("FAIL_AT"), *wanted = getenv("FAIL_HOW");
    if (!path || !at || !wanted || strcmp(wanted, how) != 0)
        return 0;
    return calls == atol(at);
}

/* Counts a call, and says whether it fails. */
static int begins(const char *path, int is_interruptible)
{
    if (!path)
        return 0;
    calls += 1;
    if (goes_wrong(path, "EIO"))
        errno = EIO;
    else if (is_interruptible && goes_wrong(path, "EINTR"))
        errno = EINTR;
    else
        return 0;
    return 1;
}

/* Counts a read, and says whether it fails. */
static int read_fails(const char *path)
{
    const char *at = getenv("READ_FAIL_AT");
    if (!path)
        return 0;
    reads += 1;
    if (getenv("RECORD_READS"))
        record("read", path, NULL, 0, -1);
    if (!at || reads != atol(at))
        return 0;
    errno = EIO;
    return 1;
}

ssize_t read(int file, void *bytes, size_t len)
{
    return read_fails(path_of(file)) ? -1 : syscall(SYS_read, file, bytes, len);
}

ssize_t pread64(int file, void *bytes, size_t len, off64_t at)
{
    return read_fails(path_of(file)) ? -1 : syscall(SYS_pread64, file, bytes, len, at);
}

ssize_t pread(int file, void *bytes, size_t len, off_t at)
{
    return pread64(file, bytes, len, at);
}

/* Opens a file; one that is made by it is told. */
static int opened(int folder, const char *path, int flags, int mode)
{
    struct stat status;
    int makes = is_watched(path) && (flags & O_CREAT) && lstat(path, &status) != 0;
    if (makes && begins(path, 1))
        return -1;
    int lists = is_watched(path) && (flags & O_DIRECTORY);
    if (lists && begins(path, 1))
        return -1;
    if (!makes && !lists && read_fails(is_watched(path) && (flags & O_ACCMODE) == O_RDONLY ? path : NULL))
        return -1;
    int file = syscall(SYS_openat, folder, path, flags, mode);
    if (file >= 0 && file < MOST_FILES) {
        free(paths[file]);
        paths[file] = is_watched(path) ? strdup(path) : NULL;
    }
    if (file >= 0 && is_watched(path))
        record(makes ? "create" : lists ? "list" : "open", path, NULL, 0, -1);
    return file;
}

#define OPENS(name)                                                                                                           \
    int name(const char *path, int flags, ...)                                                                                \
    {                                                                                                                         \
        va_list rest;                                                                                                         \
        va_start(rest, flags);                                                                                                \
        int mode = (flags & (O_CREAT | O_TMPFILE)) ? va_arg(rest, int) : 0;                                                   \
        va_end(rest);                                                                                                         \
        return opened(AT_FDCWD, path, flags, mode);                                                                           \
    }
OPENS(open)
OPENS(open64)

int openat(int folder, const char *path, int flags, ...)
{
    va_list rest;
    va_start(rest, flags);
    int mode = (flags & (O_CREAT | O_TMPFILE)) ? va_arg(rest, int) : 0;
    va_end(rest);
    return opened(folder, path, flags, mode);
}

int close(int file)
{
    if (path_of(file))
        record("close", path_of(file), NULL, 0, -1);
    if (file >= 0 && file < MOST_FILES) {
        free(paths[file]);
        paths[file] = NULL;
    }
    return syscall(SYS_close, file);
}

ssize_t write(int file, const void *bytes, size_t len)
{
    const char *path = path_of(file);
    if (begins(path, 1))
        return -1;
    if (goes_wrong(path, "short") && len > 1)
        len /= 2;
    ssize_t taken = syscall(SYS_write, file, bytes, len);
    if (taken > 0 && path)
        record("write", path, bytes, taken, -1);
    return taken;
}

static int cut(int file, long len)
{
    const char *path = path_of(file);
    if (begins(path, 1))
        return -1;
    int answer = syscall(SYS_ftruncate, file, len);
    if (answer == 0)
        record("cut", path, NULL, 0, len);
    return answer;
}

int ftruncate(int file, off_t len)
{
    return cut(file, len);
}

int ftruncate64(int file, off64_t len)
{
    return cut(file, len);
}

static int synced(int file, long call)
{
    const char *path = path_of(file);
    if (begins(path, 1))
        return -1;
    int answer = syscall(call, file);
    if (answer == 0)
        record("sync", path, NULL, 0, -1);
    return answer;
}

int fdatasync(int file)
{
    return synced(file, SYS_fdatasync);
}

int fsync(int file)
{
    return synced(file, SYS_fsync);
}

int mkdir(const char *path, mode_t mode)
{
    const char *watched = is_watched(path) ? path : NULL;
    if (begins(watched, 0))
        return -1;
    int answer = syscall(SYS_mkdir, path, mode);
    if (answer == 0)
        record("mkdir", watched, NULL, 0, -1);
    return answer;
}

static int removed(const char *path, int flags)
{
    const char *watched = is_watched(path) ? path : NULL;
    if (begins(watched, 0))
        return -1;
    int answer = syscall(SYS_unlinkat, AT_FDCWD, path, flags);
    if (answer == 0)
        record("remove", watched, NULL, 0, -1);
    return answer;
}

int unlink(const char *path)
{
    return removed(path, 0);
}

int rmdir(const char *path)
{
    return removed(path, AT_REMOVEDIR);
}
