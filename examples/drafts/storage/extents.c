/* Extents of a file, sorted by their first block: first (u32), count (u32), place (u64). Emits the extent that has the block of
   the argument, found by halving.

   Block:    512 bytes: a count of extents (u32, at most 31), 12 zeros, and the extents of 16 bytes
   Answer:   that extent, or nothing where no extent has the block */
#include "../../pifnjarl.h"

struct extent {
    u32 first;
    u32 count;
    u64 place;
};

long extents(const struct context *context, const u8 *block)
{
    const struct extent *extents = (const struct extent *)(block + 16);
    u32 low = 0, high = *(const u32 *)block;

    if (high > 31)
        return 1;
    while (low < high) {
        u32 middle = (low + high) / 2;

        if (extents[middle].first + extents[middle].count <= context->argument)
            low = middle + 1;
        else
            high = middle;
    }
    if (low < 31 && low < *(const u32 *)block && extents[low].first <= context->argument)
        emit(&extents[low], sizeof extents[low]);
    return 0;
}
