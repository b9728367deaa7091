/* Makes the operations of a loop, one after another. */
#ifndef OPERATIONS_H
#define OPERATIONS_H

#include "address.h"
#include "lines.h"
#include "pifnjarl_loop.h"

#include <stdbool.h>

/* the descriptors and names that operations are made with */
struct descriptors {
    int connections[PIFNJARL_PLACES + 1];      /* by their places; -1: none */
    struct address peers[PIFNJARL_PLACES + 1]; /* where the last one of a place came from */
    int listener;
    int signals;
    int held;         /* the file */
    int beside;       /* the new one; -1: none */
    char *path;       /* of the file */
    char *unfinished; /* of the new one */
    int folder;       /* theirs */
    int cause;        /* errno of the last operation for a file that failed */
};

/* Makes operations until the loop ends, and says whether it has done all. Lines go to `log`. */
bool make_operations(struct descriptors *d, unsigned char *handle, struct pifnjarl_operation *operation, struct lines *log);

#endif
