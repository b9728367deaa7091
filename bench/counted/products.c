/* 24 products of two numbers of 16 bits each, shifted and cut off at 255, emitted. */
#include "pifnjarl.h"

long products(const struct context *context, const u8 *block, u8 *scratch)
{
    const u16 *sample = (const u16 *)block;

#pragma unroll
    for (int i = 0; i < 24; i++) {
        u64 product = (u64)sample[i] * sample[32 + i] >> 20;

        scratch[i] = product > 255 ? 255 : product;
    }
    emit(scratch, 24);
    return 0;
}
