/* A histogram: counts the values of a byte, by its upper 6 bits, in 64 buckets of scratch. Nothing is emitted: Result
   gives the buckets.

   Record:   16 bytes, 32 in a block: the byte that is counted is byte 5
   Block:    512 bytes
   Emit:     0
   Argument: none */
#include "pifnjarl.h"

long histogram(const struct context *context, const u8 *block, u8 *scratch)
{
    u32 *bucket = (u32 *)scratch;

#pragma unroll
    for (int i = 0; i < 32; i++)
        bucket[block[16 * i + 5] >> 2]++;
    return 0;
}
