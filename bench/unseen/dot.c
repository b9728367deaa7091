/* The product of two vectors of 16 signed numbers of 16 bits, emitted, and whether it is above the argument. */
#include "pifnjarl.h"

long dot(const struct context *context, const u8 *block, u8 *scratch)
{
    const short *a = (const short *)block, *b = a + 32;
    long long sum = 0;

#pragma unroll
    for (int i = 0; i < 16; i++)
        sum += (long long)a[i] * b[i];
    ((u64 *)scratch)[0] = sum;
    ((u64 *)scratch)[1] = sum > (long long)context->argument;
    emit(scratch, 16);
    return 0;
}
