/* Adler-32 of the block's first 64 bytes, emitted. */
#include "pifnjarl.h"

long adler(const struct context *context, const u8 *block)
{
    u32 a = 1, b = 0, result;

#pragma unroll
    for (int i = 0; i < 64; i++) {
        a += block[i];
        b += a;
    }
    result = b % 65521 << 16 | a % 65521;
    emit(&result, 4);
    return 0;
}
