/* Emits the 16 differences of 17 samples of 4 bytes, as 2 bytes each where they all fit. */
#include "pifnjarl.h"

long delta(const struct context *context, const u8 *block, u8 *scratch)
{
    const u32 *sample = (const u32 *)block;
    short *out = (short *)scratch;
    u32 wide = 0;

#pragma unroll
    for (int i = 0; i < 16; i++) {
        int d = (int)(sample[i + 1] - sample[i]);
        wide |= (u32)(d + 32768) >> 16;
        out[i] = (short)d;
    }
    if (wide == 0)
        emit(out, 32);
    return 0;
}
