/* 8 numbers of 4 decimal digits each (the low nibbles), summed up; those that begin with 9 are counted apart. */
#include "pifnjarl.h"

long decimal(const struct context *context, const u8 *block, u8 *scratch)
{
    u64 sum = 0, apart = 0;

#pragma unroll
    for (int i = 0; i < 8; i++) {
        const u8 *at = block + 8 * i;
        u64 a = at[0] & 15, b = at[1] & 15, c = at[2] & 15, d = at[3] & 15;

        if (a == 9)
            apart++;
        else
            sum += ((a * 10 + b) * 10 + c) * 10 + d;
    }
    ((u64 *)scratch)[0] = sum;
    ((u64 *)scratch)[1] = apart;
    emit(scratch, 16);
    return 0;
}
