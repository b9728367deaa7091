#define _GNU_SOURCE
#include "image_file.h"

#include <errno.h>
#include <fcntl.h>
#include <stdio.h>
#include <stdlib.h>
#include <string.h>
#include <sys/file.h>
#include <sys/stat.h>
#include <unistd.h>

enum { MOST_TRIES = 40 };

/* where a path leads, the name of the new file, and their folder */
struct names {
    char *path;
    char *unfinished;
    char *folder;
};

static bool name(struct names *names, const char *path)
{
    names->path = realpath(path, NULL);
    if (names->path == NULL)
        names->path = strdup(path); /* there is no file yet */
    if (names->path == NULL)
        return false;
    const char *slash = strrchr(names->path, '/');
    size_t count = strlen(names->path) + sizeof ".unfinished";
    names->unfinished = malloc(count);
    names->folder = slash == NULL ? strdup(".") : strndup(names->path, slash == names->path ? 1 : (size_t)(slash - names->path));
    if (names->unfinished == NULL || names->folder == NULL)
        return false;
    snprintf(names->unfinished, count, "%s.unfinished", names->path);
    return true;
}

/* Closes a file, and keeps in errno what failed before. */
static void close_failed(int file)
{
    int cause = errno;
    close(file);
    errno = cause;
}

/* Does a name lead to an open file? */
static bool is_named(const char *name, int file)
{
    struct stat open, there;
    return fstat(file, &open) == 0 && stat(name, &there) == 0 && open.st_dev == there.st_dev && open.st_ino == there.st_ino;
}

int image_file_open_ordinary(const char *path, int flags)
{
    struct stat about;
    int file = open(path, O_RDONLY | O_NONBLOCK | O_NOCTTY | O_CLOEXEC | flags);
    if (file >= 0 && fstat(file, &about) == 0 && S_ISREG(about.st_mode))
        return file;
    if (file >= 0)
        close(file);
    if (file >= 0 || errno == ELOOP || errno == ENXIO) /* these are of a link and of a socket */
        errno = EINVAL;
    return -1;
}

/* Opens a file that stands where a new one is to be made. */
static int open_stale(const char *name)
{
    int file = image_file_open_ordinary(name, O_NOFOLLOW);
    if (file < 0 && errno == EINVAL)
        errno = EEXIST;
    return file;
}

int image_file_create(const char *name, mode_t mode)
{
    for (int tries = 0; tries < MOST_TRIES; tries++) {
        int file = open(name, O_RDWR | O_CREAT | O_EXCL | O_CLOEXEC, mode);
        bool is_new = file >= 0;
        if (!is_new && errno != EEXIST)
            return -1;
        if (!is_new && (file = open_stale(name)) < 0) {
            if (errno == ENOENT)
                continue; /* it was removed meanwhile */
            return -1;
        }
        if (flock(file, LOCK_EX | LOCK_NB) != 0 && errno == EWOULDBLOCK) {
            close(file);
            break;
        }
        if (is_new && is_named(name, file))
            return file;
        if (!is_new && is_named(name, file) && unlink(name) != 0) {
            close_failed(file);
            return -1;
        }
        close(file);
    }
    errno = EBUSY;
    return -1;
}

bool image_file_take_after(int file, const struct stat *before)
{
    /* only root gives a file to another user; a group of this user's own can be kept all the same */
    if (fchown(file, before->st_uid, before->st_gid) != 0 && fchown(file, (uid_t)-1, before->st_gid) != 0)
        errno = 0;
    return fchmod(file, before->st_mode & 07777) == 0;
}

/* Writes bytes to a file, and brings them to the disk. */
static bool write_all(int file, const unsigned char *bytes, size_t count)
{
    size_t done = 0;
    while (done < count) {
        ssize_t more = write(file, bytes + done, count - done);
        if (more >= 0)
            done += (size_t)more;
        else if (errno != EINTR)
            return false;
    }
    return fsync(file) == 0;
}

/* Brings a folder to the disk, and with it the names in it. */
static bool sync_folder(const char *path)
{
    int folder = open(path, O_RDONLY | O_DIRECTORY | O_CLOEXEC);
    if (folder < 0)
        return false;
    bool done = fsync(folder) == 0;
    close_failed(folder);
    return done;
}

static enum image_file_result replace(const struct names *names, const unsigned char *bytes, size_t count)
{
    struct stat before;
    bool is_there = stat(names->path, &before) == 0;
    int file = image_file_create(names->unfinished, is_there ? 0600 : 0666);
    if (file < 0)
        return IMAGE_FILE_AS_IT_WAS;
    bool placed = (!is_there || image_file_take_after(file, &before)) && write_all(file, bytes, count)
                  && rename(names->unfinished, names->path) == 0;
    int cause = errno;
    if (!placed)
        unlink(names->unfinished);
    close(file); /* and with it the lock */
    errno = cause;
    if (!placed)
        return IMAGE_FILE_AS_IT_WAS;
    return sync_folder(names->folder) ? IMAGE_FILE_REPLACED : IMAGE_FILE_NOT_SYNCED;
}

enum image_file_result image_file_put(const char *path, const unsigned char *bytes, size_t count)
{
    struct names names = {0};
    enum image_file_result done = name(&names, path) ? replace(&names, bytes, count) : IMAGE_FILE_AS_IT_WAS;
    int cause = errno;
    free(names.path);
    free(names.unfinished);
    free(names.folder);
    errno = cause;
    return done;
}

bool image_file_replace(const char *path, const unsigned char *bytes, size_t count)
{
    return image_file_put(path, bytes, count) == IMAGE_FILE_REPLACED;
}
