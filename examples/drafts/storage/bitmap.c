/* A bitmap of free blocks, a bit for each. Counts the free ones, and remembers the longest run of them, across blocks.

   Block:    512 bytes, 4096 bits
   Scratch:  free blocks (u64), the longest run (u32), the run that the last block ended with (u32)
   Answer:   in scratch these three; nothing is emitted */
#include "../../pifnjarl.h"

struct found {
    u64 free;
    u32 longest;
    u32 run;
};

long bitmap(const struct context *context, const u8 *block, u8 *scratch)
{
    struct found *found = (struct found *)scratch;

    for (u32 i = 0; i < context->block_size * 8; i++) {
        if (block[i / 8] >> (i % 8) & 1) {
            found->run = 0;
            continue;
        }
        found->free++;
        found->run++;
        if (found->run > found->longest)
            found->longest = found->run;
    }
    return 0;
}
