/* A file for which a handle of pifnjarl_handle.h tells which calls are to be made, in order: it is opened and held, read whole, and the
   calls are made. */
#ifndef KEPT_FILE_H
#define KEPT_FILE_H

#include <stdbool.h>
#include <stddef.h>

/* what came of folding a journal */
enum kept_folded {
    KEPT_NOT_FOLDED, /* the file has to be opened again */
    KEPT_FOLDED,
    KEPT_NO_ROOM,  /* the new file can't be written beside the old one, or brought to the disk: the old one is used on */
    KEPT_NO_MEMORY /* memory is wanting for the new file: the old one is used on */
};

struct kept_file {
    char *path;       /* where the path leads */
    char *unfinished; /* PATH.unfinished */
    char *folder;
    int file;
    int written;  /* a new file, whole and on the disk, with the name PATH.unfinished; -1 where there is none */
    bool is_due;  /* the handle wanted to fold its journal, since it has grown long */
    bool is_fold; /* the new file that is wanted is to be written */
    int cause;    /* why it isn't written */
};

enum kept_result {
    KEPT_OPENED,
    KEPT_IN_USE,     /* another program holds the file */
    KEPT_NOT_OPENED, /* errno tells why */
};

/* Opens the file where a path leads, and holds it. It has to be closed whatever comes of it. */
enum kept_result kept_file_open(struct kept_file *kept, const char *path);

/* All bytes of the file, which are on the disk then, as its name is, in memory of malloc; null where they can't be had, and errno tells
   why. */
unsigned char *kept_file_read(struct kept_file *kept, size_t *count);

/* Makes the calls that the handle tells, in order, up to the first that fails, for which errno tells why, and which the handle is told. */
bool kept_file_make_calls(struct kept_file *kept, unsigned char *handle);

/* Folds the journal of a handle whose calls are made: the new file is written beside the old one, and brought to the disk, before the
   handle has it put in the old one's place. So a disk that has no room for it, or fails while it is written, changes nothing. Errno tells
   why it isn't folded. */
enum kept_folded kept_file_fold(struct kept_file *kept, unsigned char *handle);

void kept_file_close(struct kept_file *kept);

#endif
