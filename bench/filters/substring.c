/* Emits the line of 64 bytes at the block's start where it has the word "ERROR" at one of its places. */
#include "pifnjarl.h"

long substring(const struct context *context, const u8 *block)
{
    const u32 erro = 'E' | 'R' << 8 | 'R' << 16 | 'O' << 24;

#pragma unroll
    for (int i = 0; i < 60; i++)
        if (*(const u32 *)(block + i) == erro && block[i + 4] == 'R')
            goto found;
    return 0;

found:
    emit(block, 64);
    return 0;
}
