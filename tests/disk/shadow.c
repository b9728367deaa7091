/* A library that is loaded before the C library (LD_PRELOAD), and notes in a file each call that a program makes for the files of one
   folder, and each byte that it writes to standard output or sends to a socket, in the order in which they happen. calls.py reads the
   notes.

     SHADOW_NOTES    the file of the notes; without it nothing is noted
     SHADOW_FOLDER   the folder, without links in its path; of its subfolders nothing is noted
     SHADOW_KILL     the program is killed at its call of this number, counted from 1 on, of which a write is made to the half before; or
                     at its first sync of a kind
     SHADOW_FAIL     its sync of this number, or its first one of a kind, isn't made, and fails with EIO
     SHADOW_SKIP     syncs of this kind aren't made, and are answered as done

   The kinds of a sync: `payload` (of what was written), `gate` (of an open gate), `opening` (of a file to which nothing was written), `new`
   (of a file that has no name of its own yet), `folder` (after a rename or a link) and `name` (of the folder, else). */
#define _GNU_SOURCE
#include <dlfcn.h>
#include <errno.h>
#include <fcntl.h>
#include <limits.h>
#include <signal.h>
#include <stdarg.h>
#include <stdbool.h>
#include <stdint.h>
#include <stdio.h>
#include <stdlib.h>
#include <string.h>
#include <sys/socket.h>
#include <sys/stat.h>
#include <sys/syscall.h>
#include <sys/uio.h>
#include <unistd.h>

/* calls.py has the same numbers */
enum kind { OPENED = 1, WRITTEN, TRUNCATED, SYNCED, RENAMED, LINKED, UNLINKED, SAID };
enum flags { IS_NEW = 1, IS_FOLDER = 2, HAS_FAILED = 4, IS_SKIPPED = 8 };
enum { NOTES_FILE = 900, MOST_FILES = 256, GATE_BYTES = 4096 };

struct note {
    uint32_t kind;
    uint32_t flags;
    uint64_t inode;
    uint64_t place; /* an offset, a length, or a descriptor */
    uint32_t first; /* bytes of what follows: a name, or what was written */
    uint32_t second;
};

/* what was done last for a file since its last sync */
enum last { NOTHING, WROTE, OPENED_GATE };

struct watched {
    ino_t inode;
    bool is_unfinished;
    enum last last;
};

static struct watched files[MOST_FILES];
static size_t file_count;
static struct stat folder;
static char folder_path[PATH_MAX];
static bool notes_calls, has_renamed;

/* a number of calls that are left up to one, or a kind of sync */
struct moment {
    long left;
    char kind[16];
};

static struct moment killed, failed, skipped;

static struct moment moment_of(const char *variable)
{
    struct moment moment = {0};
    const char *text = getenv(variable);
    if (text != NULL && (moment.left = strtol(text, NULL, 10)) == 0)
        snprintf(moment.kind, sizeof moment.kind, "%s", text);
    return moment;
}

/* Counts a call, and says whether it is the one. */
static bool is_now(struct moment *moment)
{
    return moment->left > 0 && --moment->left == 0;
}

/* Is a sync of the kind? */
static bool is_kind(const struct moment *moment, const char *kind)
{
    return strcmp(moment->kind, kind) == 0;
}

__attribute__((constructor)) static void begin(void)
{
    const char *notes = getenv("SHADOW_NOTES"), *path = getenv("SHADOW_FOLDER");
    if (notes == NULL || path == NULL || stat(path, &folder) != 0)
        return;
    int file = (int)syscall(SYS_openat, AT_FDCWD, notes, O_WRONLY | O_CREAT | O_APPEND | O_CLOEXEC, 0600);
    if (file < 0 || dup3(file, NOTES_FILE, O_CLOEXEC) < 0)
        abort();
    syscall(SYS_close, file);
    snprintf(folder_path, sizeof folder_path, "%s", path);
    killed = moment_of("SHADOW_KILL");
    failed = moment_of("SHADOW_FAIL");
    skipped = moment_of("SHADOW_SKIP");
    notes_calls = true;
}

/* ---- notes */

static void note(struct note head, const void *first, const void *second)
{
    struct iovec parts[] = {{&head, sizeof head}, {(void *)first, head.first}, {(void *)second, head.second}};
    size_t count = sizeof head + head.first + head.second;
    if (syscall(SYS_writev, NOTES_FILE, parts, 3) != (long)count)
        abort();
}

static void note_bytes(enum kind kind, uint64_t inode, uint64_t place, const void *bytes, size_t count)
{
    note((struct note){.kind = kind, .inode = inode, .place = place, .first = (uint32_t)count}, bytes, NULL);
}

static void die(void)
{
    kill(getpid(), SIGKILL);
}

/* ---- files */

static struct watched *file_of(ino_t inode)
{
    for (size_t number = 0; number < file_count; number++)
        if (files[number].inode == inode)
            return &files[number];
    return NULL;
}

/* The file of a descriptor, if it is one of the folder's; `about` is set for any descriptor. */
static struct watched *watched(int descriptor, struct stat *about)
{
    int cause = errno;
    bool is_there = notes_calls && fstat(descriptor, about) == 0;
    errno = cause;
    return is_there && S_ISREG(about->st_mode) && about->st_dev == folder.st_dev ? file_of(about->st_ino) : NULL;
}

static bool is_folder(int descriptor)
{
    struct stat about;
    int cause = errno;
    bool is_it = notes_calls && fstat(descriptor, &about) == 0 && about.st_dev == folder.st_dev && about.st_ino == folder.st_ino;
    errno = cause;
    return is_it;
}

/* The name of a path in the folder, or null where it is elsewhere. */
static const char *name_in_folder(const char *path)
{
    char copy[PATH_MAX];
    struct stat about;
    const char *slash = strrchr(path, '/');
    if (!notes_calls || strlen(path) >= sizeof copy)
        return NULL;
    snprintf(copy, sizeof copy, "%.*s", slash == NULL ? 1 : (int)(slash - path) + 1, slash == NULL ? "." : path);
    int cause = errno;
    bool is_in = stat(copy, &about) == 0 && about.st_dev == folder.st_dev && about.st_ino == folder.st_ino;
    errno = cause;
    return is_in ? (slash == NULL ? path : slash + 1) : NULL;
}

static bool ends_in(const char *name, const char *end)
{
    const char *found = strstr(name, end);
    return found != NULL;
}

/* Notes a file that was opened. */
static void opened(int descriptor, const char *name, bool is_new)
{
    struct stat about;
    int cause = errno;
    if (descriptor < 0 || fstat(descriptor, &about) != 0 || !S_ISREG(about.st_mode)) {
        errno = cause;
        return;
    }
    struct watched *file = is_new ? NULL : file_of(about.st_ino);
    if (file == NULL && (file = file_of(about.st_ino)) == NULL) {
        if (file_count == MOST_FILES)
            abort();
        file = &files[file_count++];
    }
    if (is_new || file->inode != about.st_ino)
        *file = (struct watched){.inode = about.st_ino};
    file->is_unfinished = ends_in(name, ".unfinished");
    uint32_t count = (uint32_t)strlen(name);
    uint64_t length = (uint64_t)about.st_size;
    note((struct note){.kind = OPENED, .flags = is_new ? IS_NEW : 0, .inode = about.st_ino, .place = length, .first = count}, name, NULL);
    errno = cause;
}

static int open_noted(int at, const char *path, int flags, mode_t mode)
{
    const char *name = at == AT_FDCWD ? name_in_folder(path) : NULL;
    struct stat about;
    int cause = errno;
    bool was_there = name != NULL && stat(path, &about) == 0;
    errno = cause;
    if (name != NULL && (flags & O_CREAT) != 0 && is_now(&killed))
        die();
    int descriptor = (int)syscall(SYS_openat, at, path, flags, mode);
    if (name != NULL && (flags & O_DIRECTORY) == 0)
        opened(descriptor, name, !was_there);
    return descriptor;
}

static mode_t mode_of(int flags, va_list rest)
{
    return (flags & (O_CREAT | __O_TMPFILE)) != 0 ? va_arg(rest, mode_t) : 0;
}

#define OPENS(name)                                    \
    int name(const char *path, int flags, ...)         \
    {                                                  \
        va_list rest;                                  \
        va_start(rest, flags);                         \
        mode_t mode = mode_of(flags, rest);            \
        va_end(rest);                                  \
        return open_noted(AT_FDCWD, path, flags, mode); \
    }

#define OPENS_AT(name)                                 \
    int name(int at, const char *path, int flags, ...) \
    {                                                  \
        va_list rest;                                  \
        va_start(rest, flags);                         \
        mode_t mode = mode_of(flags, rest);            \
        va_end(rest);                                  \
        return open_noted(at, path, flags, mode);      \
    }

OPENS(open)
OPENS(open64)
OPENS_AT(openat)
OPENS_AT(openat64)

/* ---- writes */

static ssize_t write_raw(int descriptor, const void *bytes, size_t count, off_t at)
{
    return at < 0 ? syscall(SYS_write, descriptor, bytes, count) : syscall(SYS_pwrite64, descriptor, bytes, count, at);
}

/* Writes to a file of the folder at an offset, or where its descriptor is. */
static ssize_t write_file(struct watched *file, int descriptor, const void *bytes, size_t count, off_t at)
{
    off_t place = at < 0 ? lseek(descriptor, 0, SEEK_CUR) : at;
    bool dies = is_now(&killed);
    ssize_t done = write_raw(descriptor, bytes, dies ? count / 2 : count, at);
    if (done > 0) {
        note_bytes(WRITTEN, file->inode, (uint64_t)place, bytes, (size_t)done);
        file->last = count == GATE_BYTES && *(const unsigned char *)bytes == 1 ? OPENED_GATE : WROTE;
    }
    if (dies)
        die();
    return done;
}

/* Notes what was sent to a host or written to standard output. */
static void said(int descriptor, const struct stat *about, const void *bytes, ssize_t done)
{
    if (done > 0 && (descriptor == STDOUT_FILENO || S_ISSOCK(about->st_mode)))
        note_bytes(SAID, 0, (uint64_t)descriptor, bytes, (size_t)done);
}

static ssize_t write_noted(int descriptor, const void *bytes, size_t count, off_t at)
{
    struct stat about = {0};
    struct watched *file = watched(descriptor, &about);
    if (file != NULL)
        return write_file(file, descriptor, bytes, count, at);
    ssize_t done = write_raw(descriptor, bytes, count, at);
    if (notes_calls)
        said(descriptor, &about, bytes, done);
    return done;
}

ssize_t write(int descriptor, const void *bytes, size_t count)
{
    return write_noted(descriptor, bytes, count, -1);
}

ssize_t pwrite(int descriptor, const void *bytes, size_t count, off_t at)
{
    return write_noted(descriptor, bytes, count, at);
}

ssize_t pwrite64(int descriptor, const void *bytes, size_t count, off64_t at)
{
    return write_noted(descriptor, bytes, count, at);
}

ssize_t writev(int descriptor, const struct iovec *parts, int count)
{
    ssize_t done = 0;
    for (int part = 0; part < count; part++) {
        ssize_t more = parts[part].iov_len == 0 ? 0 : write(descriptor, parts[part].iov_base, parts[part].iov_len);
        if (more < 0)
            return done > 0 ? done : more;
        done += more;
        if ((size_t)more < parts[part].iov_len)
            break;
    }
    return done;
}

ssize_t send(int descriptor, const void *bytes, size_t count, int flags)
{
    struct stat about = {.st_mode = S_IFSOCK};
    ssize_t done = syscall(SYS_sendto, descriptor, bytes, count, flags, NULL, 0);
    if (notes_calls)
        said(descriptor, &about, bytes, done);
    return done;
}

static int truncate_noted(int descriptor, off_t length)
{
    struct stat about;
    struct watched *file = watched(descriptor, &about);
    if (file != NULL && is_now(&killed))
        die();
    int done = (int)syscall(SYS_ftruncate, descriptor, length);
    if (file != NULL && done == 0) {
        note_bytes(TRUNCATED, file->inode, (uint64_t)length, NULL, 0);
        file->last = WROTE;
    }
    return done;
}

int ftruncate(int descriptor, off_t length)
{
    return truncate_noted(descriptor, length);
}

int ftruncate64(int descriptor, off64_t length)
{
    return truncate_noted(descriptor, length);
}

/* ---- syncs */

static const char *kind_of_sync(const struct watched *file)
{
    if (file == NULL)
        return has_renamed ? "folder" : "name";
    if (file->is_unfinished)
        return "new";
    return file->last == OPENED_GATE ? "gate" : file->last == WROTE ? "payload" : "opening";
}

static int sync_noted(int descriptor, long call)
{
    struct stat about;
    struct watched *file = watched(descriptor, &about);
    if (file == NULL && !is_folder(descriptor))
        return (int)syscall(call, descriptor);
    const char *kind = kind_of_sync(file);
    if (is_now(&killed) || is_kind(&killed, kind))
        die();
    bool fails = is_now(&failed) || is_kind(&failed, kind);
    bool is_skipped = is_kind(&skipped, kind);
    if (fails)
        failed = (struct moment){0};
    if (file != NULL)
        file->last = NOTHING;
    else
        has_renamed = false;
    note((struct note){.kind = SYNCED,
                       .flags = (file == NULL ? IS_FOLDER : 0) | (fails ? HAS_FAILED : 0) | (is_skipped ? IS_SKIPPED : 0),
                       .inode = file == NULL ? folder.st_ino : file->inode},
         NULL, NULL);
    /* the notes say what is on the disk: that this one waits for it too would take its time for nothing */
    errno = EIO;
    return fails ? -1 : 0;
}

int fsync(int descriptor)
{
    return sync_noted(descriptor, SYS_fsync);
}

int fdatasync(int descriptor)
{
    return sync_noted(descriptor, SYS_fdatasync);
}

/* ---- names */

/* Notes that a name was given, or taken. */
static int named(enum kind kind, int done, const char *first, const char *second)
{
    if (done == 0 && first != NULL) {
        note((struct note){.kind = kind, .first = (uint32_t)strlen(first), .second = second == NULL ? 0 : (uint32_t)strlen(second)}, first,
             second);
        has_renamed |= kind != UNLINKED;
    }
    return done;
}

/* Dies in front of a call for a name of the folder, where it is the call to die at. */
static const char *name_to_change(const char *path)
{
    const char *name = name_in_folder(path);
    if (name != NULL && is_now(&killed))
        die();
    return name;
}

int rename(const char *from, const char *to)
{
    const char *first = name_to_change(from), *second = first == NULL ? NULL : name_in_folder(to);
    int done = (int)syscall(SYS_rename, from, to);
    if (done == 0 && second != NULL) {
        struct stat about;
        struct watched *file = stat(to, &about) == 0 ? file_of(about.st_ino) : NULL;
        if (file != NULL)
            file->is_unfinished = false;
    }
    return named(RENAMED, done, second == NULL ? NULL : first, second);
}

int link(const char *from, const char *to)
{
    const char *first = name_to_change(from), *second = first == NULL ? NULL : name_in_folder(to);
    return named(LINKED, (int)syscall(SYS_link, from, to), second == NULL ? NULL : first, second);
}

int unlink(const char *path)
{
    const char *name = name_to_change(path);
    return named(UNLINKED, (int)syscall(SYS_unlink, path), name, NULL);
}

int unlinkat(int at, const char *path, int flags)
{
    const char *name = at == AT_FDCWD ? name_to_change(path) : NULL;
    return named(UNLINKED, (int)syscall(SYS_unlinkat, at, path, flags), name, NULL);
}
