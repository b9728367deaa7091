/* The part of the durable device that is C: it has the calls made for a file that crates/device_library tells. */
#define _GNU_SOURCE
#include "pifnjarl_durable.h"
#include "kept_file.h"
#include "pifnjarl_handle.h"

#include <errno.h>
#include <stdbool.h>
#include <stdlib.h>

struct pifnjarl_durable {
    unsigned char *handle;
    struct kept_file kept;
    struct pifnjarl_geometry geometry;
    bool failed; /* the file has to be opened again */
    enum pifnjarl_durable_result folded; /* what came of the last fold */
    int cause;                           /* why it wasn't made */
};

static enum pifnjarl_durable_result make_calls(struct pifnjarl_durable *device)
{
    device->failed = !kept_file_make_calls(&device->kept, device->handle);
    return device->failed ? PIFNJARL_DURABLE_CANNOT_WRITE : PIFNJARL_DURABLE_DONE;
}

static enum pifnjarl_durable_result result_of(enum kept_folded folded)
{
    switch (folded) {
    case KEPT_FOLDED: return PIFNJARL_DURABLE_DONE;
    case KEPT_NO_ROOM: return PIFNJARL_DURABLE_NO_ROOM;
    case KEPT_NO_MEMORY: return PIFNJARL_DURABLE_NO_MEMORY;
    case KEPT_NOT_FOLDED: break;
    }
    return errno == 0 || errno == ENOMEM ? PIFNJARL_DURABLE_FAILED : PIFNJARL_DURABLE_CANNOT_WRITE;
}

/* Folds the journal, and keeps what came of it. */
static enum pifnjarl_durable_result fold(struct pifnjarl_durable *device)
{
    errno = 0;
    enum kept_folded folded = kept_file_fold(&device->kept, device->handle);
    device->failed = folded == KEPT_NOT_FOLDED;
    device->folded = result_of(folded);
    device->cause = errno;
    return device->folded;
}

/* Folds a journal that has grown long. Where it can't be folded, it is used on. */
static enum pifnjarl_durable_result fold_when_due(struct pifnjarl_durable *device)
{
    if (device->kept.is_due) {
        enum pifnjarl_durable_result result = fold(device);
        return device->failed ? result : PIFNJARL_DURABLE_DONE;
    }
    /* the library itself lacked it, before there was a new file */
    if (pifnjarl_ask(device->handle, PIFNJARL_ASK_FOLDED, 0, 0) == PIFNJARL_FOLD_NO_MEMORY) {
        device->folded = PIFNJARL_DURABLE_NO_MEMORY;
        device->cause = ENOMEM;
    }
    return PIFNJARL_DURABLE_DONE;
}

static enum pifnjarl_durable_result begin(struct pifnjarl_durable *device, const char *path)
{
    enum kept_result opened = kept_file_open(&device->kept, path);
    if (opened == KEPT_IN_USE)
        return PIFNJARL_DURABLE_IN_USE;
    size_t count;
    unsigned char *bytes = opened == KEPT_OPENED ? kept_file_read(&device->kept, &count) : NULL;
    if (bytes == NULL)
        return errno == ENOMEM ? PIFNJARL_DURABLE_NO_MEMORY : PIFNJARL_DURABLE_CANNOT_READ;
    device->handle = malloc(pifnjarl_handle_bytes()); /* aligned to 16 */
    if (device->handle != NULL)
        pifnjarl_handle_open(device->handle, PIFNJARL_OPEN_FILE, bytes, count);
    device->geometry = pifnjarl_geometry_of(bytes, count);
    free(bytes);
    if (device->handle == NULL)
        return PIFNJARL_DURABLE_NO_MEMORY;
    size_t told = pifnjarl_opened(device->handle);
    switch (told) {
    case PIFNJARL_DONE: return make_calls(device);
    case PIFNJARL_WANT_OF_MEMORY: return PIFNJARL_DURABLE_NO_MEMORY;
    case PIFNJARL_OTHER_VERSION: return PIFNJARL_DURABLE_OTHER_VERSION;
    default: return PIFNJARL_DURABLE_NO_IMAGE;
    }
}

enum pifnjarl_durable_result pifnjarl_durable_open(const char *path, struct pifnjarl_durable **device)
{
    *device = NULL;
    struct pifnjarl_durable *opened = calloc(1, sizeof *opened);
    if (opened == NULL)
        return PIFNJARL_DURABLE_NO_MEMORY;
    enum pifnjarl_durable_result result = begin(opened, path);
    if (result == PIFNJARL_DURABLE_DONE) {
        *device = opened;
    } else {
        int cause = errno;
        pifnjarl_durable_close(opened);
        errno = cause;
    }
    return result;
}

/* Why frames weren't served. */
static enum pifnjarl_durable_result refused(enum pifnjarl_served served)
{
    switch (served) {
    case PIFNJARL_SERVED_NO_FRAMES: return PIFNJARL_DURABLE_NO_FRAMES;
    case PIFNJARL_SERVED_NO_MEMORY: return PIFNJARL_DURABLE_NO_MEMORY;
    case PIFNJARL_SERVED_NOT:
    case PIFNJARL_SERVED: break;
    }
    return PIFNJARL_DURABLE_FAILED;
}

enum pifnjarl_durable_result pifnjarl_durable_serve(struct pifnjarl_durable *device, const void *frames, size_t count)
{
    if (device->failed)
        return PIFNJARL_DURABLE_FAILED;
    const unsigned char *bytes = count == 0 ? (const unsigned char *)"" : frames;
    enum pifnjarl_served served = (enum pifnjarl_served)pifnjarl_give(device->handle, PIFNJARL_ASK_SERVE, 0, bytes, count);
    device->failed = served != PIFNJARL_SERVED;
    if (device->failed)
        return refused(served);
    enum pifnjarl_durable_result result = make_calls(device);
    return result == PIFNJARL_DURABLE_DONE ? fold_when_due(device) : result;
}

size_t pifnjarl_durable_replies(struct pifnjarl_durable *device, size_t from, void *out, size_t room)
{
    unsigned char none[1];
    return pifnjarl_ask_for(device->handle, PIFNJARL_ASK_REPLIES, 0, from, room == 0 ? none : out, room);
}

enum pifnjarl_durable_result pifnjarl_durable_fold(struct pifnjarl_durable *device)
{
    return device->failed ? PIFNJARL_DURABLE_FAILED : fold(device);
}

enum pifnjarl_durable_result pifnjarl_durable_folded(const struct pifnjarl_durable *device)
{
    errno = device->cause;
    return device->folded;
}

struct pifnjarl_geometry pifnjarl_durable_geometry(const struct pifnjarl_durable *device)
{
    return device->geometry;
}

const char *pifnjarl_durable_words(enum pifnjarl_durable_result result)
{
    switch (result) {
    case PIFNJARL_DURABLE_DONE: return "done";
    case PIFNJARL_DURABLE_NO_IMAGE: return "no image and no journal";
    case PIFNJARL_DURABLE_NO_MEMORY: return "want of memory";
    case PIFNJARL_DURABLE_IN_USE: return "in use by another program";
    case PIFNJARL_DURABLE_CANNOT_READ: return "cannot read";
    case PIFNJARL_DURABLE_FAILED: return "an earlier call failed";
    case PIFNJARL_DURABLE_NO_ROOM: return "the new file can't be written";
    case PIFNJARL_DURABLE_CANNOT_WRITE: return "cannot write";
    case PIFNJARL_DURABLE_NO_FRAMES: return "no frames";
    case PIFNJARL_DURABLE_OTHER_VERSION: return "a journal of another version of the device";
    }
    return "no result";
}

void pifnjarl_durable_close(struct pifnjarl_durable *device)
{
    if (device == NULL)
        return;
    if (device->handle != NULL)
        pifnjarl_handle_end(device->handle);
    kept_file_close(&device->kept);
    free(device->handle);
    free(device);
}
