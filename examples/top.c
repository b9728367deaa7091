/* The top of all blocks: keeps the 4 records of the greatest measure in scratch, in order, and emits them with the run's
   last block. Of equal measures the greater key comes first.

   Record:   64 bytes, 8 in a block: a key (u32) at byte 0, a measure (u32) at byte 16
   Block:    512 bytes
   Emit:     34, a record of 32 bytes: 4 times a key and a measure (u32 each), zeros where there were fewer records
   Argument: none */
#include "pifnjarl.h"

long top(const struct context *context, const u8 *block, u8 *scratch)
{
    u64 *best = (u64 *)scratch;

#pragma unroll
    for (int i = 0; i < 8; i++) {
        u64 next = le32(block, 64 * i + 16) << 32 | le32(block, 64 * i);

#pragma unroll
        for (int j = 0; j < 4; j++)
            if (next > best[j]) {
                u64 lesser = best[j];

                best[j] = next;
                next = lesser;
            }
    }
    if (context->index + 1 == context->count)
        emit(best, 32);
    return 0;
}
