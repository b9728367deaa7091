/* 5 signed readings of 16 bits and a signed limit of 32: the sum of those beyond it, the greatest, and their number, emitted. */
#include "pifnjarl.h"

long sensors(const struct context *context, const u8 *block, u8 *scratch)
{
    const short *reading = (const short *)block;
    int limit = *(const int *)(block + 64) >> 20, sum = 0, most = -32768, count = 0;

#pragma unroll
    for (int i = 0; i < 5; i++) {
        int x = reading[i];

        if (x > limit) {
            sum += x;
            count++;
        }
        if (x > most)
            most = x;
    }
    ((int *)scratch)[0] = sum;
    ((int *)scratch)[1] = most;
    ((int *)scratch)[2] = count;
    emit(scratch, 12);
    return 0;
}
