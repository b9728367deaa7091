/* The part of the library that is C: memory for a handle, null pointers, files, and words. The rest is crates/device_library. */
#define _POSIX_C_SOURCE 200809L
#include "pifnjarl_device.h"
#include "image_file.h"
#include "pifnjarl_handle.h"

#include <errno.h>
#include <fcntl.h>
#include <stdbool.h>
#include <stdlib.h>
#include <string.h>
#include <sys/stat.h>
#include <unistd.h>

/* where a slice of no bytes lies */
static unsigned char nowhere[1];

/* The numbers of the namespace are after the handle, at a multiple of 16. */
static size_t place_of_geometry(void)
{
    return (pifnjarl_handle_bytes() + 15) / 16 * 16;
}

static bool lacks(const void *bytes, size_t count)
{
    return bytes == NULL && count != 0;
}

static const unsigned char *read_at(const void *bytes)
{
    return bytes == NULL ? nowhere : bytes;
}

static unsigned char *handle_of(struct pifnjarl_device *device)
{
    return (unsigned char *)device;
}

enum pifnjarl_result pifnjarl_open(const void *image, size_t image_bytes, struct pifnjarl_device **device)
{
    if (device == NULL)
        return PIFNJARL_NULL_POINTER;
    *device = NULL;
    if (lacks(image, image_bytes))
        return PIFNJARL_NULL_POINTER;
    /* memory of malloc is aligned to 16 */
    unsigned char *handle = malloc(place_of_geometry() + sizeof(struct pifnjarl_geometry));
    if (handle == NULL)
        return PIFNJARL_WANT_OF_MEMORY;
    pifnjarl_handle_open(handle, PIFNJARL_OPEN_MEMORY, read_at(image), image_bytes);
    struct pifnjarl_geometry geometry = pifnjarl_geometry_of(read_at(image), image_bytes);
    memcpy(handle + place_of_geometry(), &geometry, sizeof geometry);
    enum pifnjarl_result opened = (enum pifnjarl_result)pifnjarl_opened(handle);
    if (opened != PIFNJARL_DONE)
        pifnjarl_close((struct pifnjarl_device *)handle);
    else
        *device = (struct pifnjarl_device *)handle;
    return opened;
}

/* Reads a file of so many bytes. */
static bool read_all(int file, unsigned char *bytes, size_t count)
{
    while (count > 0) {
        ssize_t done = read(file, bytes, count);
        if (done < 0 && errno == EINTR)
            continue;
        if (done <= 0) {
            if (done == 0)
                errno = EIO; /* the file was cut meanwhile */
            return false;
        }
        bytes += done;
        count -= (size_t)done;
    }
    return true;
}

enum pifnjarl_result pifnjarl_open_path(const char *path, struct pifnjarl_device **device)
{
    if (device == NULL)
        return PIFNJARL_NULL_POINTER;
    *device = NULL;
    if (path == NULL)
        return PIFNJARL_NULL_POINTER;
    int file = open(path, O_RDONLY | O_CLOEXEC);
    if (file < 0)
        return PIFNJARL_CANNOT_READ;
    enum pifnjarl_result opened = PIFNJARL_CANNOT_READ;
    struct stat about;
    unsigned char *bytes = NULL;
    if (fstat(file, &about) == 0) {
        size_t count = (size_t)about.st_size;
        bytes = malloc(count + 1);
        if (bytes == NULL)
            opened = PIFNJARL_WANT_OF_MEMORY;
        else if (read_all(file, bytes, count))
            opened = pifnjarl_open(bytes, count, device);
    }
    int cause = errno;
    free(bytes);
    close(file);
    errno = cause;
    return opened;
}

enum pifnjarl_result pifnjarl_geometry(const struct pifnjarl_device *device, struct pifnjarl_geometry *geometry)
{
    if (device == NULL)
        return PIFNJARL_NO_DEVICE;
    if (geometry == NULL)
        return PIFNJARL_NULL_POINTER;
    memcpy(geometry, (const unsigned char *)device + place_of_geometry(), sizeof *geometry);
    return PIFNJARL_DONE;
}

enum pifnjarl_result pifnjarl_do(struct pifnjarl_device *device, const struct pifnjarl_event *event, struct pifnjarl_reply *reply,
                                 void *output, size_t output_bytes)
{
    if (device == NULL)
        return PIFNJARL_NO_DEVICE;
    if (event == NULL || reply == NULL || lacks(output, output_bytes))
        return PIFNJARL_NULL_POINTER;
    bool submits = event->kind == PIFNJARL_SUBMIT;
    if (submits && (event->entry == NULL || lacks(event->data, event->data_bytes)))
        return PIFNJARL_NULL_POINTER;
    size_t told = pifnjarl_handle_call(handle_of(device), PIFNJARL_ASK_EVENT, event->number, event->kind,
                                       submits ? event->entry : nowhere, submits ? PIFNJARL_ENTRY_BYTES : 0,
                                       submits ? read_at(event->data) : nowhere, submits ? event->data_bytes : 0, reply,
                                       output == NULL ? nowhere : output, output_bytes);
    return (enum pifnjarl_result)told;
}

enum pifnjarl_result pifnjarl_turns(struct pifnjarl_device *device, uint32_t run, uint32_t most, struct pifnjarl_reply *reply)
{
    if (device == NULL)
        return PIFNJARL_NO_DEVICE;
    if (reply == NULL)
        return PIFNJARL_NULL_POINTER;
    size_t told =
        pifnjarl_handle_call(handle_of(device), PIFNJARL_ASK_TURNS, run, most, nowhere, 0, nowhere, 0, reply, nowhere, 0);
    return (enum pifnjarl_result)told;
}

uint32_t pifnjarl_lowest_run(struct pifnjarl_device *device)
{
    return device == NULL ? PIFNJARL_NO_RUN : (uint32_t)pifnjarl_ask(handle_of(device), PIFNJARL_ASK_LOWEST_RUN, 0, 0);
}

enum pifnjarl_result pifnjarl_save(struct pifnjarl_device *device, void *image, size_t room, size_t *image_bytes)
{
    if (device == NULL)
        return PIFNJARL_NO_DEVICE;
    if (image_bytes == NULL || lacks(image, room))
        return PIFNJARL_NULL_POINTER;
    size_t count = pifnjarl_ask_for(handle_of(device), PIFNJARL_ASK_SAVE, 0, 0, image == NULL ? nowhere : image, room);
    if (count == 0)
        return PIFNJARL_WANT_OF_MEMORY;
    *image_bytes = count;
    return count > room ? PIFNJARL_WRONG_SIZE : PIFNJARL_DONE;
}

static enum pifnjarl_result put(const char *path, const unsigned char *bytes, size_t count)
{
    switch (image_file_put(path, bytes, count)) {
    case IMAGE_FILE_REPLACED: return PIFNJARL_DONE;
    case IMAGE_FILE_NOT_SYNCED: return PIFNJARL_CANNOT_SYNC;
    case IMAGE_FILE_AS_IT_WAS: break;
    }
    return errno == ENOMEM ? PIFNJARL_WANT_OF_MEMORY : PIFNJARL_CANNOT_WRITE;
}

enum pifnjarl_result pifnjarl_save_path(struct pifnjarl_device *device, const char *path)
{
    size_t count;
    if (path == NULL)
        return PIFNJARL_NULL_POINTER;
    enum pifnjarl_result saved = pifnjarl_save(device, NULL, 0, &count);
    if (saved != PIFNJARL_WRONG_SIZE)
        return saved;
    unsigned char *bytes = malloc(count);
    if (bytes == NULL)
        return PIFNJARL_WANT_OF_MEMORY;
    saved = pifnjarl_save(device, bytes, count, &count);
    if (saved == PIFNJARL_DONE)
        saved = put(path, bytes, count);
    int cause = errno;
    free(bytes);
    errno = cause;
    return saved;
}

void pifnjarl_close(struct pifnjarl_device *device)
{
    if (device == NULL)
        return;
    pifnjarl_handle_end(handle_of(device));
    free(device);
}

const char *pifnjarl_words(enum pifnjarl_result result)
{
    switch (result) {
    case PIFNJARL_DONE: return "done";
    case PIFNJARL_COMPLETION: return "completion";
    case PIFNJARL_PENDING: return "pending";
    case PIFNJARL_IDLE: return "idle";
    case PIFNJARL_FAULT_TAKEN: return "fault taken";
    case PIFNJARL_FAULT_REFUSED: return "fault refused";
    case PIFNJARL_WANT_OF_MEMORY: return "want of memory";
    case PIFNJARL_IMAGE_TRUNCATED: return "no image: cut short";
    case PIFNJARL_IMAGE_MAGIC: return "no image: it begins otherwise";
    case PIFNJARL_IMAGE_HEADER: return "no image: its header";
    case PIFNJARL_IMAGE_ZONE_ROW: return "no image: the row of a zone";
    case PIFNJARL_IMAGE_LIMITS: return "no image: too many open or active zones";
    case PIFNJARL_IMAGE_TRAILING: return "no image: bytes follow its last block";
    case PIFNJARL_IMAGE_TOTAL: return "no image: the number of its written blocks";
    case PIFNJARL_NO_DEVICE: return "no device";
    case PIFNJARL_WRONG_SIZE: return "wrong size";
    case PIFNJARL_UNKNOWN_KIND: return "unknown kind";
    case PIFNJARL_NUMBER_TOO_LARGE: return "number too large";
    case PIFNJARL_NULL_POINTER: return "null pointer";
    case PIFNJARL_CANNOT_READ: return "cannot read";
    case PIFNJARL_CANNOT_WRITE: return "cannot write";
    case PIFNJARL_CANNOT_SYNC: return "cannot sync the folder";
    }
    return "no result";
}
