/* How many bits are set in each of the block's first 16 words of 8 bytes, emitted as 16 bytes. */
#include "pifnjarl.h"

long bits(const struct context *context, const u8 *block, u8 *scratch)
{
    const u64 *word = (const u64 *)block;

#pragma unroll
    for (int i = 0; i < 16; i++) {
        u64 x = word[i];

        x -= x >> 1 & 0x5555555555555555;
        x = (x & 0x3333333333333333) + (x >> 2 & 0x3333333333333333);
        x = (x + (x >> 4)) & 0x0f0f0f0f0f0f0f0f;
        scratch[i] = x * 0x0101010101010101 >> 56;
    }
    emit(scratch, 16);
    return 0;
}
