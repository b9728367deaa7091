/* The device as a library: a zoned NVMe namespace that also runs small eBPF programs. docs/embedding.md has an introduction, docs/device.md
   the entries, the completions and the images, and pifnjarl_entry.h functions that make entries and read completions.

   What the caller owes, which nothing checks:
   - A device is one that pifnjarl_open or pifnjarl_open_path gave, and that isn't closed yet.
   - One call at a time is made on a device. Devices are independent of each other.
   - A pointer that comes with a number of bytes points to as many, and what a call writes to overlaps nothing else that it is given.
   - No call is made from a signal handler, or in the child of a fork of a process with threads.
   - The stack has room for 1 MiB (docs/embedding.md says how much calls take).

   A call gives a number of enum pifnjarl_result. One from 10 on, but for PIFNJARL_CANNOT_SYNC, says that nothing was done, and why. */
#ifndef PIFNJARL_DEVICE_H
#define PIFNJARL_DEVICE_H

#include "pifnjarl_entry.h"

#include <stddef.h>
#include <stdint.h>

#ifdef __cplusplus
extern "C" {
#endif

#define PIFNJARL_NO_RUN 256 /* no run is active */

enum pifnjarl_result {
    PIFNJARL_DONE = 0,
    /* what a device replies to an event */
    PIFNJARL_COMPLETION = 1,    /* a command is complete, with success or not: see its completion */
    PIFNJARL_PENDING = 2,       /* a run was admitted, or has turns left */
    PIFNJARL_IDLE = 3,          /* no run has this number */
    PIFNJARL_FAULT_TAKEN = 4,   /* the zone is in the fault's state */
    PIFNJARL_FAULT_REFUSED = 5, /* there is no such zone, or the fault isn't for it */
    /* nothing was done: the bytes are no image, whose first fault this is */
    PIFNJARL_IMAGE_TRUNCATED = 10, /* it is cut short */
    PIFNJARL_IMAGE_MAGIC = 11,     /* it begins as no image does */
    PIFNJARL_IMAGE_HEADER = 12,    /* a number of its header */
    PIFNJARL_IMAGE_ZONE_ROW = 13,  /* a zone's row */
    PIFNJARL_IMAGE_LIMITS = 14,    /* more zones are open or active than may be */
    PIFNJARL_IMAGE_TRAILING = 15,  /* bytes follow its last block */
    PIFNJARL_IMAGE_TOTAL = 18,     /* the number of written blocks in its header */
    /* nothing was done */
    PIFNJARL_WANT_OF_MEMORY = 17,
    PIFNJARL_NO_DEVICE = 32,        /* the device is null */
    PIFNJARL_WRONG_SIZE = 33,       /* the output has room for less than PIFNJARL_TRANSFER_BYTES, or an image for less than its bytes */
    PIFNJARL_UNKNOWN_KIND = 34,     /* no event is of this kind */
    PIFNJARL_NUMBER_TOO_LARGE = 35, /* a queue over 65535, or a run over 255 */
    PIFNJARL_NULL_POINTER = 36,     /* another pointer is null where something has to be */
    PIFNJARL_CANNOT_READ = 37,      /* the file can't be read; errno tells why */
    PIFNJARL_CANNOT_WRITE = 38,     /* the file can't be written, and is as it was; errno tells why */
    PIFNJARL_CANNOT_SYNC = 39       /* the new file is in place, but its name couldn't be brought to the disk; errno tells why */
};

enum pifnjarl_kind {
    PIFNJARL_SUBMIT = 1,          /* an entry is submitted to a queue */
    PIFNJARL_TURN = 2,            /* a run does its next block */
    PIFNJARL_FAULT_READ_ONLY = 3, /* a zone can only be read from now on */
    PIFNJARL_FAULT_OFFLINE = 4    /* a zone is lost */
};

/* What happens to a device. */
struct pifnjarl_event {
    uint32_t kind;      /* of enum pifnjarl_kind */
    uint32_t number;    /* the queue, the run, or the zone */
    const void *entry;  /* of PIFNJARL_SUBMIT: PIFNJARL_ENTRY_BYTES */
    const void *data;   /* of PIFNJARL_SUBMIT: what stands beside the entry, read where it lies; may be null where data_bytes is 0 */
    size_t data_bytes;
};

/* What is told of a reply beside its data. pifnjarl_completion(reply.completion) reads a completion. */
struct pifnjarl_reply {
    size_t data_bytes; /* how many bytes of data are in front of the output */
    uint32_t number;   /* the queue of a completion, or the run that is pending */
    uint8_t completion[PIFNJARL_COMPLETION_BYTES]; /* of PIFNJARL_COMPLETION, else zeros */
};

/* A device. */
struct pifnjarl_device;

/* Opens a device on an image in memory, which isn't needed any longer then. Where it can't, *device is null. */
enum pifnjarl_result pifnjarl_open(const void *image, size_t image_bytes, struct pifnjarl_device **device);

/* Opens a device on an image in a file. The file isn't held: what others write to it meanwhile is lost by a pifnjarl_save_path. */
enum pifnjarl_result pifnjarl_open_path(const char *path, struct pifnjarl_device **device);

/* The numbers of the device's namespace. */
enum pifnjarl_result pifnjarl_geometry(const struct pifnjarl_device *device, struct pifnjarl_geometry *geometry);

/* Does one event, whole, and tells what the device replies. Data of the reply is put in front of the output, where it stays; the
   output has room for PIFNJARL_TRANSFER_BYTES whatever the event. */
enum pifnjarl_result pifnjarl_do(struct pifnjarl_device *device, const struct pifnjarl_event *event, struct pifnjarl_reply *reply,
                                 void *output, size_t output_bytes);

/* Gives a run a turn, and further ones as long as it has turns left, at most `most` in all, of which 0 counts as 1. The result and the
   reply are those of the last turn: PIFNJARL_PENDING where turns are left, PIFNJARL_COMPLETION where the run has ended, PIFNJARL_IDLE where
   no run has this number. Replies to turns have no data. */
enum pifnjarl_result pifnjarl_turns(struct pifnjarl_device *device, uint32_t run, uint32_t most, struct pifnjarl_reply *reply);

/* The number of the lowest run that is active, or PIFNJARL_NO_RUN. */
uint32_t pifnjarl_lowest_run(struct pifnjarl_device *device);

/* Writes the image as it is now to memory, and tells how many bytes it has, also where there is room for fewer; image may be null
   where room is 0. It wants memory for another copy meanwhile. */
enum pifnjarl_result pifnjarl_save(struct pifnjarl_device *device, void *image, size_t room, size_t *image_bytes);

/* Writes the image as it is now to a file: to PATH.unfinished, which takes the place of PATH, with its permissions and its owner, when it
   is whole and on the disk; and brings the name to the disk. Where PATH is a link, the file that it leads to is replaced. A PATH.unfinished
   that a program left which was killed is removed first. Nothing is written while another program writes it, with EBUSY in errno, or where
   it is no ordinary file, with EEXIST. */
enum pifnjarl_result pifnjarl_save_path(struct pifnjarl_device *device, const char *path);

/* Ends a device, and with it its programs and runs. What wasn't saved is lost. Null is no device, and nothing is done. */
void pifnjarl_close(struct pifnjarl_device *device);

/* A result in words. */
const char *pifnjarl_words(enum pifnjarl_result result);

#ifdef __cplusplus
}
#endif

#endif
