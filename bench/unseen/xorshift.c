/* Unmasks 8 words of 64 bits by the stream of a generator whose seed is the block's number, and emits their sum and exclusive or. */
#include "pifnjarl.h"

long xorshift(const struct context *context, const u8 *block, u8 *scratch)
{
    const u64 *word = (const u64 *)block;
    u64 state = context->lba * 2 + 88172645463325252ull, sum = 0, all = 0;

#pragma unroll
    for (int i = 0; i < 8; i++) {
        u64 x;

        state ^= state << 13;
        state ^= state >> 7;
        state ^= state << 17;
        x = word[i] ^ state;
        sum += x;
        all ^= x;
    }
    ((u64 *)scratch)[0] = sum;
    ((u64 *)scratch)[1] = all;
    emit(scratch, 16);
    return 0;
}
