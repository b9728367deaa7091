#define _GNU_SOURCE
#include "kept_file.h"
#include "image_file.h"
#include "pifnjarl_handle.h"

#include <errno.h>
#include <fcntl.h>
#include <stdio.h>
#include <stdlib.h>
#include <string.h>
#include <sys/file.h>
#include <sys/stat.h>
#include <unistd.h>

/* ---- opening */

/* Where a path leads, the name of a new file beside it, and its folder. */
static bool name(struct kept_file *kept, const char *path)
{
    kept->path = realpath(path, NULL);
    if (kept->path == NULL)
        return false;
    size_t count = strlen(kept->path) + sizeof ".unfinished";
    kept->unfinished = malloc(count);
    kept->folder = strdup(kept->path);
    if (kept->unfinished == NULL || kept->folder == NULL)
        return false;
    snprintf(kept->unfinished, count, "%s.unfinished", kept->path);
    char *last = strrchr(kept->folder, '/');
    last[last == kept->folder ? 1 : 0] = 0;
    return true;
}

enum kept_result kept_file_open(struct kept_file *kept, const char *path)
{
    struct stat held, there;
    *kept = (struct kept_file){.file = -1, .written = -1};
    if (!name(kept, path))
        return KEPT_NOT_OPENED;
    kept->file = open(kept->path, O_RDWR | O_CLOEXEC);
    if (kept->file < 0)
        return KEPT_NOT_OPENED;
    if (flock(kept->file, LOCK_EX | LOCK_NB) != 0)
        return errno == EWOULDBLOCK ? KEPT_IN_USE : KEPT_NOT_OPENED;
    if (fstat(kept->file, &held) != 0 || stat(kept->path, &there) != 0)
        return KEPT_NOT_OPENED;
    /* who held it before may have given the name to a new file */
    return held.st_dev == there.st_dev && held.st_ino == there.st_ino ? KEPT_OPENED : KEPT_IN_USE;
}

/* Removes a new file that isn't put in the place of the old one, and keeps in errno what failed before. */
static void discard(struct kept_file *kept, int file)
{
    int cause = errno;
    if (file >= 0) {
        unlink(kept->unfinished);
        close(file);
    }
    errno = cause;
}

void kept_file_close(struct kept_file *kept)
{
    discard(kept, kept->written);
    if (kept->file >= 0)
        close(kept->file); /* and with it the lock */
    free(kept->path);
    free(kept->unfinished);
    free(kept->folder);
    *kept = (struct kept_file){.file = -1, .written = -1};
}

/* Brings a folder to the disk, and with it the names in it. */
static bool sync_folder(const char *path)
{
    int folder = open(path, O_RDONLY | O_DIRECTORY | O_CLOEXEC);
    bool done = folder >= 0 && fsync(folder) == 0;
    if (folder >= 0)
        close(folder);
    return done;
}

unsigned char *kept_file_read(struct kept_file *kept, size_t *count)
{
    struct stat about;
    if (fsync(kept->file) != 0 || !sync_folder(kept->folder) || fstat(kept->file, &about) != 0)
        return NULL;
    *count = (size_t)about.st_size;
    unsigned char *bytes = malloc(*count + 1);
    for (size_t done = 0; bytes != NULL && done < *count;) {
        ssize_t more = pread(kept->file, bytes + done, *count - done, (off_t)done);
        if (more > 0) {
            done += (size_t)more;
        } else if (more == 0 || errno != EINTR) {
            errno = more == 0 ? EIO : errno; /* where it is 0 the file was cut meanwhile */
            free(bytes);
            return NULL;
        }
    }
    return bytes;
}

/* ---- calls */

/* a file, and the handle that tells the calls for it */
struct calls {
    struct kept_file *kept;
    unsigned char *handle;
};

static size_t tell(struct calls *c, enum pifnjarl_asked question)
{
    return pifnjarl_ask(c->handle, question, 0, 0);
}

/* Puts bytes of the next call into `out`, from one on. */
static size_t bytes_from(struct calls *c, size_t from, unsigned char *out, size_t room)
{
    return pifnjarl_ask_for(c->handle, PIFNJARL_ASK_BYTES, 0, from, out, room);
}

/* Writes the bytes of the next call to a file from an offset on. */
static bool write_bytes(struct calls *c, int file, size_t at)
{
    unsigned char piece[1 << 16];
    size_t count = tell(c, PIFNJARL_ASK_SIZE);
    size_t done = 0;
    while (done < count) {
        size_t size = bytes_from(c, done, piece, sizeof piece);
        for (size_t written = 0; written < size;) {
            ssize_t more = pwrite(file, piece + written, size - written, (off_t)(at + done + written));
            if (more >= 0)
                written += (size_t)more;
            else if (errno != EINTR)
                return false;
        }
        done += size;
    }
    return true;
}

/* A new file of the bytes of the next call, with the permissions of the old one, all of it on the disk; -1 where there is none. */
static int write_new(struct calls *c)
{
    struct stat before;
    int file = image_file_create(c->kept->unfinished, 0600);
    if (file < 0)
        return -1;
    bool is_held = flock(file, LOCK_EX | LOCK_NB) == 0; /* it is from the first on, unless its file system has no locks */
    if (is_held && fstat(c->kept->file, &before) == 0 && image_file_take_after(file, &before) && write_bytes(c, file, 0)
        && fsync(file) == 0)
        return file;
    discard(c->kept, file);
    return -1;
}

/* Does a file have the bytes of the next call? */
static bool has_bytes(struct calls *c, int file)
{
    unsigned char piece[1 << 15], read[1 << 15];
    struct stat about;
    size_t count = tell(c, PIFNJARL_ASK_SIZE);
    bool same = fstat(file, &about) == 0 && (size_t)about.st_size == count;
    for (size_t done = 0; same && done < count;) {
        ssize_t more = pread(file, read, sizeof read, (off_t)done);
        size_t size = more > 0 ? (size_t)more : 0;
        same = size > 0 && bytes_from(c, done, piece, size) == size && memcmp(piece, read, size) == 0;
        done += size;
    }
    return same;
}

/* The new file that was written before, if it has these bytes, or one that is written now; -1 where there is none. */
static int take_new(struct calls *c)
{
    int file = c->kept->written;
    c->kept->written = -1;
    if (file >= 0 && has_bytes(c, file))
        return file;
    discard(c->kept, file);
    return write_new(c);
}

/* Puts a new file in the place of the old one, and holds it from the first on. */
static bool replace(struct calls *c)
{
    struct kept_file *kept = c->kept;
    int file = take_new(c);
    if (file < 0)
        return false;
    if (rename(kept->unfinished, kept->path) != 0) {
        discard(kept, file);
        return false;
    }
    close(kept->file);
    kept->file = file;
    return sync_folder(kept->folder);
}

/* Writes the new file that is wanted, where it is for a fold; else it is only noted that a fold is due. That it can't be written is no
   failure. */
static void want(struct calls *c)
{
    struct kept_file *kept = c->kept;
    kept->is_due = true;
    if (!kept->is_fold)
        return;
    discard(kept, kept->written);
    errno = ENOMEM;
    kept->written = tell(c, PIFNJARL_ASK_SIZE) == 0 ? -1 : write_new(c);
    kept->cause = errno;
}

static bool make(struct calls *c, enum pifnjarl_call next)
{
    switch (next) {
    case PIFNJARL_CALL_WRITE: return write_bytes(c, c->kept->file, tell(c, PIFNJARL_ASK_PLACE));
    case PIFNJARL_CALL_TRUNCATE: return ftruncate(c->kept->file, (off_t)tell(c, PIFNJARL_ASK_PLACE)) == 0;
    case PIFNJARL_CALL_SYNC: return fsync(c->kept->file) == 0;
    case PIFNJARL_CALL_REPLACE: return replace(c);
    case PIFNJARL_CALL_WANT: want(c); return true;
    case PIFNJARL_CALL_NONE: break;
    }
    return false;
}

bool kept_file_make_calls(struct kept_file *kept, unsigned char *handle)
{
    struct calls c = {.kept = kept, .handle = handle};
    enum pifnjarl_call next;
    while ((next = tell(&c, PIFNJARL_ASK_NEXT)) != PIFNJARL_CALL_NONE) {
        if (!make(&c, next)) {
            int cause = errno;
            tell(&c, PIFNJARL_ASK_FAILED);
            errno = cause;
            return false;
        }
        tell(&c, PIFNJARL_ASK_DONE);
    }
    return true;
}

/* ---- folding */

/* The calls for a fold without room, which say what the new file is: it is written. */
static bool write_wanted(struct kept_file *kept, unsigned char *handle)
{
    kept->is_fold = true;
    bool made = kept_file_make_calls(kept, handle);
    kept->is_fold = false;
    return made;
}

static enum kept_folded ask_to_fold(unsigned char *handle, size_t room)
{
    switch ((enum pifnjarl_folded)pifnjarl_ask(handle, PIFNJARL_ASK_FOLD, 0, room)) {
    case PIFNJARL_FOLD_DONE: return KEPT_FOLDED;
    case PIFNJARL_FOLD_NO_ROOM: return KEPT_NO_ROOM;
    case PIFNJARL_FOLD_NO_MEMORY: return KEPT_NO_MEMORY;
    case PIFNJARL_FOLD_NOT: break;
    }
    return KEPT_NOT_FOLDED;
}

/* Folds a journal into the new file that is written. */
static enum kept_folded fold_into_written(struct kept_file *kept, unsigned char *handle)
{
    struct stat about;
    if (fstat(kept->written, &about) != 0)
        return KEPT_NO_ROOM;
    enum kept_folded folded = ask_to_fold(handle, (size_t)about.st_size);
    if (!kept_file_make_calls(kept, handle))
        return KEPT_NOT_FOLDED;
    return folded == KEPT_NO_ROOM ? KEPT_NO_MEMORY : folded;
}

enum kept_folded kept_file_fold(struct kept_file *kept, unsigned char *handle)
{
    enum kept_folded folded = ask_to_fold(handle, 0);
    if (folded == KEPT_NO_ROOM && !write_wanted(kept, handle))
        folded = KEPT_NOT_FOLDED;
    if (folded == KEPT_NO_ROOM && kept->written >= 0) {
        folded = fold_into_written(kept, handle);
    } else if (folded == KEPT_NO_ROOM) {
        errno = kept->cause;
        folded = errno == ENOMEM ? KEPT_NO_MEMORY : KEPT_NO_ROOM;
    }
    discard(kept, kept->written);
    kept->written = -1;
    kept->is_due = false;
    return folded;
}
