/* The 16-bit cyclic redundancy check (CCITT) of the block's first 8 bytes, bit by bit, emitted. */
#include "pifnjarl.h"

long crc(const struct context *context, const u8 *block)
{
    u64 sum = 0xffff;

#pragma unroll
    for (int i = 0; i < 8; i++) {
        sum ^= (u64)block[i] << 8;
#pragma unroll
        for (int j = 0; j < 8; j++)
            sum = sum << 1 ^ (0x1021 & -(sum >> 15 & 1));
    }
    sum &= 0xffff;
    emit(&sum, 2);
    return 0;
}
