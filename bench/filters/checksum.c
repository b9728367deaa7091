/* The Internet checksum of the block's first 256 bytes, beside the one that its bytes 510 and 511 hold: emits the
   block's LBA where they differ. */
#include "pifnjarl.h"

long checksum(const struct context *context, const u8 *block)
{
    const u16 *words = (const u16 *)block;
    u64 lba = context->lba;
    u32 sum = 0;

#pragma unroll
    for (int line = 0; line < 128; line += 16) {
#pragma unroll
        for (int i = 0; i < 16; i++)
            sum += words[line + i];
        sum = (sum & 0xffff) + (sum >> 16);
    }
    sum = (sum & 0xffff) + (sum >> 16);
    if ((u16)~sum != words[255])
        emit(&lba, 8);
    return 0;
}
