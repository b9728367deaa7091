/* A sum: adds a field of each block in scratch, and emits the sum with the run's last block.

   Record:   one at the block's start: a field (u32) at byte 16
   Block:    512 bytes
   Emit:     10, a record of 8 bytes
   Argument: none */
#include "pifnjarl.h"

long aggregate(const struct context *context, const u8 *block, u8 *scratch)
{
    u64 *sum = (u64 *)scratch;

    *sum += le32(block, 16);
    if (context->index + 1 == context->count)
        emit(sum, 8);
    return 0;
}
