/* A device that is kept in a file: what was acknowledged is there after a crash at any moment. docs/durability.md says what that means,
   docs/embedding.md has an introduction, and docs/device.md#frames the frames.

   The caller owes what pifnjarl_device.h says of a device, and a stack with room for 2 MiB where one is opened. */
#ifndef PIFNJARL_DURABLE_H
#define PIFNJARL_DURABLE_H

#include "pifnjarl_entry.h"

#include <stddef.h>
#include <string.h>

#ifdef __cplusplus
extern "C" {
#endif

enum pifnjarl_durable_result {
    PIFNJARL_DURABLE_DONE = 0,
    PIFNJARL_DURABLE_NO_IMAGE = 1,    /* the file is neither a journal nor an image, or has what no crash leaves */
    PIFNJARL_DURABLE_NO_MEMORY = 2,
    PIFNJARL_DURABLE_IN_USE = 3,      /* another program holds the file */
    PIFNJARL_DURABLE_CANNOT_READ = 4, /* errno tells why */
    PIFNJARL_DURABLE_FAILED = 5,      /* an earlier call failed; or a fold did for want of memory, after which the device isn't used on */
    PIFNJARL_DURABLE_NO_ROOM = 6,     /* the new file can't be written, as for want of room: nothing has changed, and the device is used on;
                                         errno says why */
    PIFNJARL_DURABLE_CANNOT_WRITE = 7, /* the file can't be written, or brought to the disk: errno tells why */
    PIFNJARL_DURABLE_NO_FRAMES = 8,    /* bytes are no frames: of the frames before them in this call none or some are kept */
    PIFNJARL_DURABLE_OTHER_VERSION = 9 /* another version of the device made the journal: pifnjarl_maker_of says which, by its first bytes */
};
/* After FAILED, CANNOT_WRITE, NO_FRAMES, and after NO_MEMORY of serve, the device does nothing any more: close it, and open it again. What
   was told as done before is there. After NO_MEMORY of fold nothing has changed, and the device is used on. */

struct pifnjarl_durable;

/* Opens the device in a file, and holds the file: a journal, or an image, in whose place a journal is put. Where it can't, *device is
   null. */
enum pifnjarl_durable_result pifnjarl_durable_open(const char *path, struct pifnjarl_durable **device);

/* The numbers of the device's namespace. */
struct pifnjarl_geometry pifnjarl_durable_geometry(const struct pifnjarl_durable *device);

/* Does what frames ask for. Once it says that this is done, all of it is on the disk. Frames that come together are brought there
   together. Where the journal has grown by 64 MiB since the device was opened, or since it was to be folded last, it is folded; where the
   new file can't be written, it goes on growing, and serve says DONE all the same: pifnjarl_durable_folded says what came of it. */
enum pifnjarl_durable_result pifnjarl_durable_serve(struct pifnjarl_durable *device, const void *frames, size_t count);

/* What came of the last fold, also of one that serve tried by itself: DONE, also where there was none yet; or NO_ROOM or NO_MEMORY, and
   errno says why. Then the journal goes on growing, and serve tries again when it has grown by 64 MiB more. */
enum pifnjarl_durable_result pifnjarl_durable_folded(const struct pifnjarl_durable *device);

/* Puts the frames of the replies to what was served last into `out`, from their byte `from` on, as many as it has room for, and gives how
   many. */
size_t pifnjarl_durable_replies(struct pifnjarl_durable *device, size_t from, void *out, size_t room);

/* Puts the device as it is, with its programs, results and runs, in the place of its journal, which gets shorter by that. The new file is
   written beside the old one, and brought to the disk, before it takes its place. */
enum pifnjarl_durable_result pifnjarl_durable_fold(struct pifnjarl_durable *device);

/* Closes a device. Nothing is lost by it, but for what frames asked for that weren't served. Null is no device. */
void pifnjarl_durable_close(struct pifnjarl_durable *device);

/* A result in words. */
const char *pifnjarl_durable_words(enum pifnjarl_durable_result result);

/* ---- frames: each function writes a frame of a request, and gives how many bytes it has */

#define PIFNJARL_FRAME_BYTES 16 /* a frame has these, then an entry or a completion if it has one, then data */

/* An event's frame; what it doesn't have is 0. */
static inline size_t pifnjarl_frame(void *frame, uint8_t kind, uint8_t part, uint16_t queue, uint32_t number, uint32_t data_bytes)
{
    unsigned char *at = (unsigned char *)frame;
    pifnjarl_put(at, kind, 1);
    pifnjarl_put(at + 1, part, 1);
    pifnjarl_put(at + 2, queue, 2);
    pifnjarl_put(at + 4, number, 4);
    pifnjarl_put(at + 8, data_bytes, 8);
    return PIFNJARL_FRAME_BYTES;
}

/* Submits an entry with its data to a queue: 0, and nothing is written, where the entry is null, or has more data than a command takes. */
static inline size_t pifnjarl_frame_submit(void *frame, uint16_t queue, const void *entry, const void *data, size_t data_bytes)
{
    unsigned char *at = (unsigned char *)frame;
    if (entry == NULL || data_bytes > PIFNJARL_TRANSFER_BYTES)
        return 0;
    at += pifnjarl_frame(frame, 1, 0, queue, 0, (uint32_t)data_bytes);
    memcpy(at, entry, PIFNJARL_ENTRY_BYTES);
    if (data_bytes != 0)
        memcpy(at + PIFNJARL_ENTRY_BYTES, data, data_bytes);
    return PIFNJARL_FRAME_BYTES + PIFNJARL_ENTRY_BYTES + data_bytes;
}

/* A turn of a run. */
static inline size_t pifnjarl_frame_turn(void *frame, uint8_t run)
{
    return pifnjarl_frame(frame, 2, run, 0, 0, 0);
}

/* A fault that makes a zone Read Only, or Offline. */
static inline size_t pifnjarl_frame_fault(void *frame, uint32_t zone, int offline)
{
    return pifnjarl_frame(frame, 3, offline ? 2 : 1, 0, zone, 0);
}

/* Turns for all runs, one after another, at most so many. */
static inline size_t pifnjarl_frame_drain(void *frame, uint32_t turns)
{
    return pifnjarl_frame(frame, 4, 0, 0, turns, 0);
}

enum pifnjarl_answer {
    PIFNJARL_ANSWER_COMPLETION = 1,
    PIFNJARL_ANSWER_PENDING = 2,
    PIFNJARL_ANSWER_IDLE = 3,
    PIFNJARL_ANSWER_FAULT_TAKEN = 4,
    PIFNJARL_ANSWER_FAULT_REFUSED = 5,
    PIFNJARL_ANSWER_DRAINED = 6,
    PIFNJARL_ANSWER_SAVED = 7
};

/* A frame of a reply. */
struct pifnjarl_answered {
    uint32_t kind;                        /* of enum pifnjarl_answer */
    uint32_t run;                         /* of PENDING */
    uint32_t turns;                       /* of DRAINED: how many were given */
    struct pifnjarl_completion completion; /* of COMPLETION */
    const unsigned char *data;            /* of COMPLETION: where its data lies in the replies */
    size_t data_bytes;
};

/* Reads the first frame of these bytes, and gives how many it has: 0 where no whole frame is there. */
static inline size_t pifnjarl_frame_read(const void *replies, size_t count, struct pifnjarl_answered *answered)
{
    const unsigned char *from = (const unsigned char *)replies;
    if (count < PIFNJARL_FRAME_BYTES)
        return 0;
    memset(answered, 0, sizeof *answered);
    answered->kind = from[0];
    answered->run = from[1];
    answered->turns = (uint32_t)pifnjarl_get(from, 4, 4);
    answered->data_bytes = (size_t)pifnjarl_get(from, 8, 4);
    size_t front = PIFNJARL_FRAME_BYTES + (answered->kind == PIFNJARL_ANSWER_COMPLETION ? PIFNJARL_COMPLETION_BYTES : 0);
    if (count < front || count - front < answered->data_bytes)
        return 0;
    if (front > PIFNJARL_FRAME_BYTES)
        answered->completion = pifnjarl_completion(from + PIFNJARL_FRAME_BYTES);
    answered->data = from + front;
    return front + answered->data_bytes;
}

#ifdef __cplusplus
}
#endif

#endif
