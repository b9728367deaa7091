/* Multiplies 8 rows of 4 weights with 4 features and emits the index of the best row. */
#include "pifnjarl.h"

long matrix(const struct context *context, const u8 *block)
{
    const u32 *x = (const u32 *)block;
    u64 best = 0;
    u32 index = 0;

#pragma unroll
    for (int i = 0; i < 8; i++) {
        const u32 *w = (const u32 *)(block + 64 + 16 * i);
        u64 sum = (u64)w[0] * x[0] + (u64)w[1] * x[1] + (u64)w[2] * x[2] + (u64)w[3] * x[3];
        if (sum > best) {
            best = sum;
            index = i;
        }
    }
    emit(&index, 4);
    return 0;
}
