/* A leaf of a B-tree with slots at its end: a count (u16), then keys and values; from the end on, two bytes for each slot, where its
   cell begins. A cell is a key (u64), a length (u16) and so many bytes. Emits the cells with keys from the argument on.

   Block:    4096 bytes; a count above 64 is no leaf
   Answer:   the cells with keys of at least the argument, whole, in the order of their slots; nothing of a block that is no leaf */
#include "../../pifnjarl.h"

struct __attribute__((packed)) cell {
    u64 key;
    u16 length;
    u8 bytes[];
};

long btree(const struct context *context, const u8 *block)
{
    u16 count = *(const u16 *)block;
    const u16 *slots = (const u16 *)(block + 4096);

    if (count > 64)
        return 0;
    for (int i = 1; i <= count; i++) {
        u16 at = slots[-i];
        const struct cell *cell;

        if (at < 2 || at > 4096 - sizeof(struct cell) - 128)
            continue;
        cell = (const struct cell *)(block + at);
        if (cell->length > 54)
            continue;
        if (cell->key >= context->argument)
            emit(cell, sizeof *cell + cell->length);
    }
    return 0;
}
