/* What crates/device_library exports, and a function for each kind of call: a device in memory, a device in a file, or an NVMe/TCP target
   before either, in memory that the caller brings. What programs call stands in pifnjarl_device.h and pifnjarl_durable.h.

   What the caller owes, which nothing checks:
   - The memory of a handle has as many bytes as are told, is aligned to 16, and is used by one call at a time. Each handle is opened once,
     and ended once, whatever opening came to.
   - A pointer that comes with a number of bytes isn't null, and what a call writes to overlaps nothing else that it is given.
   - The stack has room for 1 MiB, for 2 MiB where a device in a file is opened, and for 4 MiB where a target is opened or a loop begins.
   - Of a file: the bytes that a handle is opened on are all bytes of its file, all on the disk. The calls that are told are made in order,
     each whole, and told as done only where they are; none is made behind one that failed.
   - Of a loop: each operation is made as target/pifnjarl_loop.h says, with the bytes that it carries, and what came of it is told. */
#ifndef PIFNJARL_HANDLE_H
#define PIFNJARL_HANDLE_H

#include "pifnjarl_device.h"

#include <stdbool.h>
#include <stddef.h>
#include <stdint.h>

/* ---- exports: a slice is a pointer and a length */

/* How many bytes of memory a handle needs. */
size_t pifnjarl_handle_bytes(void);

/* Opens a handle by a door. Where the bytes are refused or memory is wanting, nothing is behind it, and all the same it has to be ended. */
void pifnjarl_handle_open(unsigned char *handle, uint32_t door, const unsigned char *bytes, size_t count);

/* Does what is asked for, and gives the answer: 0, and nothing is done, where what is behind the handle doesn't know the kind. */
size_t pifnjarl_handle_call(unsigned char *handle, uint32_t kind, size_t number, size_t count, const unsigned char *piece,
                            size_t piece_bytes, const unsigned char *beside, size_t beside_bytes, struct pifnjarl_reply *reply,
                            unsigned char *out, size_t room);

/* Ends a handle; the memory is the caller's again. */
void pifnjarl_handle_end(unsigned char *handle);

/* ---- numbers */

enum pifnjarl_door {
    PIFNJARL_OPEN_MEMORY = 0,     /* on the bytes of an image: a device in memory */
    PIFNJARL_OPEN_FILE = 1,       /* on those of a journal, or of an image in whose place one is put: a device in a file */
    PIFNJARL_OPEN_TARGET = 2,     /* as the first: a target before the device */
    PIFNJARL_OPEN_TARGET_FILE = 3 /* as the second */
};

/* why nothing is behind a handle, beside PIFNJARL_WANT_OF_MEMORY and the numbers of an image's faults */
#define PIFNJARL_DAMAGED 40 /* the file is a journal that no crash leaves */
#define PIFNJARL_NO_DOOR 41
#define PIFNJARL_OTHER_VERSION 42 /* another version of the device made the journal: pifnjarl_maker_of says which */

enum pifnjarl_asked {
    PIFNJARL_ASK_OPENED = 0, /* what opening came to: PIFNJARL_DONE, or why nothing is behind the handle */
    /* a device in memory */
    PIFNJARL_ASK_EVENT = 1,      /* does an event: the queue, run or zone as number, of enum pifnjarl_kind as count, an entry as piece, its
                                    data beside; gives an enum pifnjarl_result, PIFNJARL_NO_DEVICE where there is no such device */
    PIFNJARL_ASK_LOWEST_RUN = 2, /* the lowest active run, or PIFNJARL_NO_RUN */
    PIFNJARL_ASK_SAVE = 3,       /* how many bytes the image has, which are put in front where there is room for all; 0 where memory is
                                    wanting */
    PIFNJARL_ASK_TURNS = 22,     /* gives a run turns as long as it has some left: the run as number, the most turns as count, of which 0
                                    counts as 1; gives an enum pifnjarl_result of the last turn, PIFNJARL_NO_DEVICE where there is no such
                                    device */
    /* a device in a file */
    PIFNJARL_ASK_SERVE = 4,   /* does what the frames in the piece ask for, of enum pifnjarl_served */
    PIFNJARL_ASK_REPLIES = 5, /* puts the frames of the replies from byte `count` on, as many as there is room for, and how many: none
                                 before the calls for them are told as done */
    PIFNJARL_ASK_FOLD = 6,    /* folds the journal into a new file of at most `count` bytes, of enum pifnjarl_folded */
    PIFNJARL_ASK_FOLDED = 7,  /* what came of the last fold, also of one that PIFNJARL_ASK_SERVE tried; PIFNJARL_FOLD_DONE before any */
    /* what is kept in a file */
    PIFNJARL_ASK_NEXT = 8,    /* the next call for the file, of enum pifnjarl_call */
    PIFNJARL_ASK_PLACE = 9,   /* its offset, or its length */
    PIFNJARL_ASK_SIZE = 10,   /* how many bytes it writes, or the new file that is wanted has */
    PIFNJARL_ASK_BYTES = 11,  /* puts these from byte `count` on, as many as there is room for, and how many */
    PIFNJARL_ASK_DONE = 12,   /* it is done */
    PIFNJARL_ASK_FAILED = 13, /* it failed: the file has to be opened again, and nothing is given out any more */
    /* a target; the functions below say what they do */
    PIFNJARL_ASK_NAME = 14,
    PIFNJARL_ASK_NQN = 15,
    /* of a target too: target/pifnjarl_loop.h has functions for these */
    PIFNJARL_ASK_BEGIN = 16,     /* has a loop serve it from now on, with as much told as the number says: 1 where it does */
    /* of a loop */
    PIFNJARL_ASK_OPERATION = 17, /* the operation that is to be made: its kind as the reply's number, its number as the reply's data bytes, its flag
                                    as the first byte of the reply's completion; gives how many bytes it carries */
    PIFNJARL_ASK_READS = 18,     /* puts 1 for each place on which bytes may come, where it waits, and 0 for the others */
    PIFNJARL_ASK_WRITES = 19,    /* for each that may take bytes */
    PIFNJARL_ASK_CARRIED = 20,   /* puts the bytes that it carries from byte `count` on, as many as there is room for, and how many */
    PIFNJARL_ASK_STEP = 21       /* takes what came of it: the answer's kind as number, its number as count, the bytes that came as piece; of
                                    what happened, not 0 for each place on which bytes came as piece, and for each that takes some beside */
};

/* a call that is to be made for a file */
enum pifnjarl_call {
    PIFNJARL_CALL_NONE = 0,
    PIFNJARL_CALL_WRITE = 1,    /* at an offset, over what is there and past the end */
    PIFNJARL_CALL_TRUNCATE = 2, /* to a length */
    PIFNJARL_CALL_SYNC = 3,     /* waits until all is on the disk */
    PIFNJARL_CALL_REPLACE = 4,  /* puts a new file in place of this one, on the disk before it has the name, and brings the name there */
    PIFNJARL_CALL_WANT = 5      /* changes nothing: the journal was to be folded into a new file of these bytes, and is used on. There are
                                   none where memory is wanting for them. Once such a file is on the disk, PIFNJARL_ASK_FOLD of as many
                                   bytes has it put in place */
};

/* what came of frames */
enum pifnjarl_served {
    PIFNJARL_SERVED_NOT = 0,      /* the file has to be opened again */
    PIFNJARL_SERVED = 1,          /* they are done, once the calls for them are made */
    PIFNJARL_SERVED_NO_FRAMES = 2, /* they are no frames, or end within one; the file has to be opened again */
    PIFNJARL_SERVED_NO_MEMORY = 3 /* memory is wanting; the file has to be opened again */
};

/* what came of folding a journal */
enum pifnjarl_folded {
    PIFNJARL_FOLD_NOT = 0,      /* there is none, something waits for a commit, or the file has to be opened again */
    PIFNJARL_FOLD_DONE = 1,     /* it is folded, once the calls are made */
    PIFNJARL_FOLD_NO_ROOM = 2,  /* the new file would be longer than there is room for, and PIFNJARL_CALL_WANT has its bytes: the journal
                                   is used on */
    PIFNJARL_FOLD_NO_MEMORY = 3 /* memory is wanting for it: the journal is used on */
};

#define PIFNJARL_CONNECTIONS 40 /* numbers of connections are below it */
#define PIFNJARL_UUID_BYTES 16
#define PIFNJARL_NQN_BYTES 223 /* the most bytes of the subsystem's name */

/* ---- calls */

/* A call that tells of no event. */
static inline size_t pifnjarl_call_with(unsigned char *handle, enum pifnjarl_asked kind, size_t number, size_t count,
                                        const unsigned char *piece, size_t piece_bytes, unsigned char *out, size_t room)
{
    struct pifnjarl_reply reply = {0};
    return pifnjarl_handle_call(handle, kind, number, count, piece, piece_bytes, (const unsigned char *)"", 0, &reply, out, room);
}

/* One that takes no bytes, and may give some. */
static inline size_t pifnjarl_ask_for(unsigned char *handle, enum pifnjarl_asked kind, size_t number, size_t count, unsigned char *out,
                                      size_t room)
{
    return pifnjarl_call_with(handle, kind, number, count, (const unsigned char *)"", 0, out, room);
}

/* One that takes no bytes and gives none. */
static inline size_t pifnjarl_ask(unsigned char *handle, enum pifnjarl_asked kind, size_t number, size_t count)
{
    unsigned char none[1];
    return pifnjarl_ask_for(handle, kind, number, count, none, 0);
}

/* One that takes bytes and gives none. */
static inline size_t pifnjarl_give(unsigned char *handle, enum pifnjarl_asked kind, size_t number, const unsigned char *bytes, size_t count)
{
    unsigned char none[1];
    return pifnjarl_call_with(handle, kind, number, 0, bytes, count, none, 0);
}

/* What opening came to. */
static inline size_t pifnjarl_opened(unsigned char *handle)
{
    return pifnjarl_ask(handle, PIFNJARL_ASK_OPENED, 0, 0);
}

/* ---- targets */

/* Has the target take the names that come of a UUID: SUBNQN, the serial number and NGUID. False where memory is wanting. */
static inline bool pifnjarl_target_name(unsigned char *target, const unsigned char uuid[PIFNJARL_UUID_BYTES])
{
    return pifnjarl_give(target, PIFNJARL_ASK_NAME, 0, uuid, PIFNJARL_UUID_BYTES) != 0;
}

/* Puts the name of the subsystem, SUBNQN, into `out`, as far as it has room, and gives how many bytes. */
static inline size_t pifnjarl_target_nqn(unsigned char *target, unsigned char *out, size_t room)
{
    return pifnjarl_ask_for(target, PIFNJARL_ASK_NQN, 0, 0, out, room);
}

#endif
