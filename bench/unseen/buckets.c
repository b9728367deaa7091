/* 16 numbers of 32 bits over 10 buckets by their remainder, counted in scratch, emitted. */
#include "pifnjarl.h"

long buckets(const struct context *context, const u8 *block, u8 *scratch)
{
    const u32 *word = (const u32 *)block;

#pragma unroll
    for (int i = 0; i < 16; i++)
        scratch[masked(word[i] % 10, 15)]++;
    emit(scratch, 10);
    return 0;
}
