/* 6 headers of big-endian fields: a length of 16 bits, an address of 32 and a port; emits the sum of the lengths of those in a net. */
#include "pifnjarl.h"

#define be16(at) ((u64)(at)[0] << 8 | (at)[1])
#define be32(at) (be16(at) << 16 | be16((at) + 2))

long headers(const struct context *context, const u8 *block, u8 *scratch)
{
    u64 sum = 0, last = 0;

#pragma unroll
    for (int i = 0; i < 6; i++) {
        const u8 *at = block + 40 * i;
        u64 length = be16(at + 2), address = be32(at + 12), port = be16(at + 20);

        if (address >> 28 < 9 && port > 1023) {
            sum += length;
            last = address;
        }
    }
    ((u64 *)scratch)[0] = sum;
    ((u64 *)scratch)[1] = last;
    emit(scratch, 16);
    return 0;
}
