/* Of two bitmaps of 512 bits, which words have a bit in common, as 8 bits; emits these and the common words. */
#include "pifnjarl.h"

long bitmap(const struct context *context, const u8 *block, u8 *scratch)
{
    const u64 *a = (const u64 *)block, *b = a + 8;
    u64 *out = (u64 *)scratch, which = 0;

#pragma unroll
    for (int i = 0; i < 8; i++) {
        u64 both = a[i] & b[i];

        out[i] = both;
        if (both)
            which |= 1ull << i;
        if (!(both & 0xffffffff))
            which |= 0x100ull << i;
    }
    out[8] = which;
    emit(scratch, 72);
    return 0;
}
