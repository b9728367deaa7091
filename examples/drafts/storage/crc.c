/* Sectors with a CRC-32C in their last four bytes. Emits the LBA and both sums where they differ.

   Block:    512 bytes: 508 of data, and the sum of these
   Answer:   of each block with another sum its LBA (u64), the sum that it has (u32) and the one it should have (u32) */
#include "../../pifnjarl.h"

static const u32 nibbles[16] = {
    0x00000000, 0x105ec76f, 0x20bd8ede, 0x30e349b1, 0x417b1dbc, 0x5125dad3, 0x61c69362, 0x7198540d,
    0x82f63b78, 0x92a8fc17, 0xa24bb5a6, 0xb21572c9, 0xc38d26c4, 0xd3d3e1ab, 0xe330a81a, 0xf36e6f75,
};

struct wrong {
    u64 lba;
    u32 has;
    u32 should;
};

long crc(const struct context *context, const u8 *block)
{
    u32 sum = ~0u;

    for (int i = 0; i < 508; i++) {
        sum = nibbles[(sum ^ block[i]) & 15] ^ sum >> 4;
        sum = nibbles[(sum ^ block[i] >> 4) & 15] ^ sum >> 4;
    }
    sum = ~sum;
    if (sum != *(const u32 *)(block + 508)) {
        struct wrong wrong = { context->lba, *(const u32 *)(block + 508), sum };
        emit(&wrong, sizeof wrong);
    }
    return 0;
}
