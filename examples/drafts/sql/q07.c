/* SELECT COUNT(DISTINCT customer) FROM orders      -- customers below 8192

   Rows:     32 bytes, 16 in a block of 512: customer (u32), 28 more
   Scratch:  a bit for each customer
   Answer:   in scratch the bit of each customer that has an order; each first order of one is emitted, 4 bytes */
#include "rows.h"

struct row { u32 customer; u8 rest[28]; };

long q07(const struct context *context, const u8 *block, u8 *scratch)
{
    for (int r0 = 0; r0 < 16; r0++) {
        const struct row *row = (const struct row *)(block + r0 * 32);
        u32 k0 = row->customer;

        if (k0 >= 8192)
            continue;
        if (!(scratch[k0 / 8] & 1 << k0 % 8)) {
            scratch[k0 / 8] |= 1 << k0 % 8;
            emit(&row->customer, sizeof(row->customer));
        }
    }
    return 0;
}
