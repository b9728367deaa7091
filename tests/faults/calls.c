/* A library that is loaded before the C library (LD_PRELOAD): calls of a program fail, or take time, where variables ask for it.

     FAILING_CALL     `io N`: the Nth call of a file fails with EIO; `short N`: the Nth read or write moves one byte; `alloc N`: the Nth
                      request for memory is refused, in a library that was built with -DREFUSES_MEMORY
     FAILING_TOLD     the file that is made where the program came to that call
     FAILING_OUTPUT   standard output takes so many writes, and then fails with EIO
     FAILING_ROOM     no file grows over so many bytes: a write beyond them fails with ENOSPC
     FAILING_NEW      no file that is to take another's place does: a write beyond so many bytes of NAME.unfinished fails with ENOSPC
     FAILING_SYNC     nor does one here: NAME.unfinished isn't brought to the disk, and fsync fails with EIO
     FAILING_READS    of a file so many bytes can be read, and then reading fails with EIO
     NO_ROOM          while the file of this name exists, NAME.unfinished can't be written; where that file has a letter in it, it can be
                      written, and not brought to the disk
     TIME_GOES        the clock of the program goes so many times as fast
     SYNC_TAKES       each sync of a file takes so many milliseconds more */
#define _GNU_SOURCE
#include <errno.h>
#include <fcntl.h>
#include <poll.h>
#include <stdarg.h>
#include <stdbool.h>
#include <stdio.h>
#include <stdlib.h>
#include <string.h>
#include <sys/stat.h>
#include <sys/syscall.h>
#include <sys/uio.h>
#include <time.h>
#include <unistd.h>

/* The number that a variable has; another one where it isn't set. */
static long number(const char *variable, long otherwise)
{
    const char *text = getenv(variable);
    return text == NULL ? otherwise : strtol(text, NULL, 10);
}

/* ---- one call of a kind */

/* Is this the call of its kind that is to fail? */
static bool is_due(const char *kind)
{
    static long calls;
    const char *asked = getenv("FAILING_CALL"), *told = getenv("FAILING_TOLD");
    size_t length = strlen(kind);
    if (asked == NULL || told == NULL || strncmp(asked, kind, length) != 0 || asked[length] != ' ')
        return false;
    if (++calls != strtol(asked + length, NULL, 10))
        return false;
    long file = syscall(SYS_openat, AT_FDCWD, told, O_WRONLY | O_CREAT, 0666);
    if (file >= 0)
        syscall(SYS_close, file);
    return true;
}

static bool fails(void)
{
    if (!is_due("io"))
        return false;
    errno = EIO;
    return true;
}

#ifdef REFUSES_MEMORY
extern void *__libc_malloc(size_t size);
extern void *__libc_realloc(void *block, size_t size);

void *malloc(size_t size)
{
    return is_due("alloc") ? NULL : __libc_malloc(size);
}

void *realloc(void *block, size_t size)
{
    return is_due("alloc") ? NULL : __libc_realloc(block, size);
}
#endif

/* ---- bounds of files */

static bool is_file(int descriptor)
{
    struct stat about;
    return fstat(descriptor, &about) == 0 && S_ISREG(about.st_mode);
}

static bool is_unfinished(int descriptor)
{
    static const char ending[] = ".unfinished";
    char link[32], name[4096];
    snprintf(link, sizeof link, "/proc/self/fd/%d", descriptor);
    ssize_t count = readlink(link, name, sizeof name);
    size_t last = sizeof ending - 1;
    return count >= (ssize_t)last && memcmp(name + count - last, ending, last) == 0;
}

/* How many bytes a file may have; -1 where there is no bound. */
static off_t room_of(int descriptor)
{
    off_t new_room = number("FAILING_NEW", -1);
    return new_room >= 0 && is_unfinished(descriptor) ? new_room : number("FAILING_ROOM", -1);
}

/* The length of the file that NO_ROOM names; -1 where there is none. */
static off_t full_disk(void)
{
    const char *full = getenv("NO_ROOM");
    struct stat about;
    return full != NULL && stat(full, &about) == 0 ? about.st_size : -1;
}

/* Where the next read or write of a descriptor begins. */
static off_t place(int descriptor)
{
    bool appends = (fcntl(descriptor, F_GETFL) & O_APPEND) != 0;
    return lseek(descriptor, 0, appends ? SEEK_END : SEEK_CUR);
}

/* How many of so many bytes from an offset on are within a bound; where none is, the call fails with an error. */
static ssize_t within(off_t bound, off_t at, size_t count, int error)
{
    if (at + (off_t)count <= bound)
        return (ssize_t)count;
    if (at < bound)
        return bound - at;
    errno = error;
    return -1;
}

/* ---- calls of files */

int open(const char *path, int flags, ...)
{
    va_list rest;
    va_start(rest, flags);
    mode_t mode = (flags & O_CREAT) != 0 ? va_arg(rest, mode_t) : 0;
    va_end(rest);
    return fails() ? -1 : (int)syscall(SYS_openat, AT_FDCWD, path, flags, mode);
}

ssize_t read(int descriptor, void *bytes, size_t count)
{
    ssize_t fits = (ssize_t)count;
    if (fails())
        return -1;
    off_t readable = number("FAILING_READS", -1);
    if (descriptor > STDERR_FILENO && readable >= 0 && is_file(descriptor))
        fits = within(readable, place(descriptor), count, EIO);
    if (fits < 0)
        return -1;
    return syscall(SYS_read, descriptor, bytes, fits > 1 && is_due("short") ? 1 : fits);
}

/* Does standard output fail now? */
static bool output_fails(void)
{
    static long done;
    long outputs = number("FAILING_OUTPUT", -1);
    if (outputs < 0 || done++ < outputs)
        return false;
    errno = EIO;
    return true;
}

ssize_t write(int descriptor, const void *bytes, size_t count)
{
    ssize_t fits = (ssize_t)count;
    if (fails() || (descriptor == STDOUT_FILENO && output_fails()))
        return -1;
    if (descriptor > STDERR_FILENO && count > 0 && is_file(descriptor) && room_of(descriptor) >= 0)
        fits = within(room_of(descriptor), place(descriptor), count, ENOSPC);
    if (fits < 0)
        return -1;
    return syscall(SYS_write, descriptor, bytes, fits > 1 && is_due("short") ? 1 : fits);
}

ssize_t writev(int descriptor, const struct iovec *parts, int count)
{
    return fails() ? -1 : syscall(SYS_writev, descriptor, parts, count);
}

ssize_t pwrite(int descriptor, const void *bytes, size_t count, off_t at)
{
    if (full_disk() == 0 && is_unfinished(descriptor)) {
        errno = ENOSPC;
        return -1;
    }
    return syscall(SYS_pwrite64, descriptor, bytes, count, at);
}

/* Does bringing a file to the disk fail? It takes the time that is asked for. */
static bool sync_fails(int descriptor)
{
    usleep((useconds_t)number("SYNC_TAKES", 0) * 1000);
    if (number("FAILING_SYNC", -1) >= 0 && is_unfinished(descriptor))
        errno = EIO;
    else if (full_disk() > 0 && is_unfinished(descriptor))
        errno = ENOSPC;
    else
        return fails();
    return true;
}

int fsync(int descriptor)
{
    return sync_fails(descriptor) ? -1 : (int)syscall(SYS_fsync, descriptor);
}

int fdatasync(int descriptor)
{
    usleep((useconds_t)number("SYNC_TAKES", 0) * 1000);
    return (int)syscall(SYS_fdatasync, descriptor);
}

int rename(const char *from, const char *to)
{
    return fails() ? -1 : (int)syscall(SYS_rename, from, to);
}

/* ---- time */

int clock_gettime(clockid_t clock, struct timespec *at)
{
    int result = (int)syscall(SYS_clock_gettime, clock, at);
    if (result == 0 && clock == CLOCK_MONOTONIC) {
        unsigned long long time = (unsigned long long)at->tv_sec * 1000000000 + (unsigned long long)at->tv_nsec;
        time *= (unsigned long long)number("TIME_GOES", 1);
        at->tv_sec = (time_t)(time / 1000000000);
        at->tv_nsec = (long)(time % 1000000000);
    }
    return result;
}

int poll(struct pollfd *polled, nfds_t count, int timeout)
{
    int goes = (int)number("TIME_GOES", 1);
    return (int)syscall(SYS_poll, polled, count, timeout > 0 ? (timeout + goes - 1) / goes : timeout);
}
