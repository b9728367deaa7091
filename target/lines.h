/* Lines that a program prints without waiting for who reads them. A reader that is slow or gone makes lines drop out, and nothing else. */
#ifndef LINES_H
#define LINES_H

#include <stddef.h>
#include <stdint.h>
#include <time.h>

enum {
    LINE_BYTES = 4096,    /* of a line, with its newline; the rest of a longer one is cut off */
    LINES_OF_A_KIND = 40, /* that are printed in a second, as many as there are connections; the others are counted in one line */
    LINE_KINDS = 16,      /* that are counted apart; all others are one kind */
    KIND_BYTES = 128      /* of a line by which its kind is known */
};

struct line {
    char bytes[LINE_BYTES];
    size_t count;
    size_t kind; /* how many of them say what kind of line it is; 0: all */
};

/* lines that differ only in their digits */
struct line_kind {
    char like[KIND_BYTES]; /* the first one of this second; empty: none */
    uint64_t came;         /* in this second */
};

struct lines {
    int descriptor;
    int own;            /* it, if it was opened here; -1: it wasn't */
    const char *before; /* each line */
    struct line rest;   /* of a line that was written in part */
    uint64_t dropped;   /* lines that were not printed */
    time_t second;      /* in which kinds are counted */
    struct line_kind kinds[LINE_KINDS];
};

/* Adds text to a line, as printf does. */
__attribute__((format(printf, 2, 3))) void line_add(struct line *line, const char *format, ...);

/* Has lines go to a descriptor, each with a text before it. They are to be closed; the descriptor stays open. */
void lines_open(struct lines *lines, int descriptor, const char *before);

/* Prints a line, unless enough of its kind were printed in this second. If it can't be written now, it is dropped, and counted. */
void lines_print(struct lines *lines, struct line *line);

/* Once a second is over, says how many lines were left out in it, and, where lines can be written again, how many were dropped. */
void lines_go_on(struct lines *lines);

/* Says the same at once, as far as it can be written now, and closes what was opened. */
void lines_close(struct lines *lines);

#endif
