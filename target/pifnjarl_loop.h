/* The loop of a target: which operation is to be made next, by what came of the last. The library decides, and C makes the operations.
   crates/device_library has the same numbers. */
#ifndef PIFNJARL_LOOP_H
#define PIFNJARL_LOOP_H

#include <stdbool.h>
#include <stddef.h>
#include <stdint.h>

#define PIFNJARL_PLACES 40      /* connections have places below it; one that is closed at once has this one */
#define PIFNJARL_INCOMING 65536 /* bytes that are read at once */

enum pifnjarl_operation_kind {
    PIFNJARL_POLL = 0,         /* waits for `number` milliseconds at most, until something happens where `reads` and `writes` say, a host wants to
                                  connect, if `flag`, or a signal comes */
    PIFNJARL_SIGNAL = 1,       /* takes a signal */
    PIFNJARL_NOW = 2,          /* asks for the time */
    PIFNJARL_ACCEPT = 3,       /* takes a connection into place `number` */
    PIFNJARL_READ = 4,         /* reads on that of place `number` */
    PIFNJARL_WRITE = 5,        /* writes the first of the bytes that it carries there */
    PIFNJARL_CLOSE = 6,        /* closes it */
    PIFNJARL_PWRITE = 7,       /* writes all bytes that it carries to the file at offset `number`; to the new one if `flag` */
    PIFNJARL_FTRUNCATE = 8,    /* sets the file's length to `number` */
    PIFNJARL_FSYNC = 9,        /* waits for the file; for the new one if `flag` */
    PIFNJARL_CREATE = 10,      /* makes a new file beside the file, empty and locked, with its owner and its permissions */
    PIFNJARL_RENAME = 11,      /* gives the new file the name of the file, which it is from then on */
    PIFNJARL_SYNC_FOLDER = 12, /* waits for their names */
    PIFNJARL_DISCARD = 13,     /* removes the new file */
    PIFNJARL_LOG = 14,         /* prints the line that it carries */
    PIFNJARL_END = 15          /* ends the program: it has done all if `flag`, or has failed */
};

/* bytes of a line that stand for the file's name, and for why the last operation for a file failed that did; each other is text */
enum pifnjarl_mark { PIFNJARL_PATH = 1, PIFNJARL_CAUSE = 2 };

struct pifnjarl_operation {
    uint32_t kind;
    uint64_t number;  /* a place, an offset, a length or milliseconds */
    uint64_t carried; /* how many bytes it carries */
    uint8_t flag;     /* the new file; hosts are waited for; a line has a cause; or all was done */
    uint8_t reads[PIFNJARL_PLACES];
    uint8_t writes[PIFNJARL_PLACES];
};

enum pifnjarl_answer_kind {
    PIFNJARL_DID = 0,      /* it is done */
    PIFNJARL_CAME = 1,     /* bytes came, which stand beside */
    PIFNJARL_TAKEN = 2,    /* `number` bytes were taken */
    PIFNJARL_AGAIN = 3,    /* nothing now */
    PIFNJARL_FULL = 4,     /* there is no room: no descriptor, or no space */
    PIFNJARL_FAILED = 5,   /* it failed, or the connection is over */
    PIFNJARL_HAPPENED = 6, /* what happened is in `reads`, `writes` and `number`, the sum of what is so of enum pifnjarl_happened */
    PIFNJARL_TIME = 7,     /* `number` microseconds */
    PIFNJARL_SIGNALLED = 8 /* a signal: to end if `number` is 1, else to report */
};

/* what happened beside connections, in `number` */
enum pifnjarl_happened { PIFNJARL_ACCEPTS = 1, PIFNJARL_SIGNALS = 2 };

struct pifnjarl_answer {
    uint32_t kind;
    uint64_t number;
    uint8_t reads[PIFNJARL_PLACES];
    uint8_t writes[PIFNJARL_PLACES];
};

/* Begins the loop of a handle that was opened as a target, whose calls for the file are made, and gives its first operation. At level 0
   failures are told, at 1 connections too, from 2 on also commands. False where there is no target, or memory is wanting, and then there is
   none any more. From then on the handle is asked for nothing else, but is ended. */
bool pifnjarl_loop_begin(unsigned char *handle, size_t level, struct pifnjarl_operation *operation);

/* Takes what came of the last operation, with the `count` bytes that came, at most PIFNJARL_INCOMING, and gives the next one. */
void pifnjarl_loop_step(unsigned char *handle, const struct pifnjarl_answer *answer, const unsigned char *came, size_t count,
                        struct pifnjarl_operation *operation);

/* Puts the bytes that the last operation carries into `out`, from one on, as many as there is room for, and gives how many. */
size_t pifnjarl_loop_carried(unsigned char *handle, size_t from, unsigned char *out, size_t room);

#endif
