/* Sum and count: adds prices by kind in scratch, with the number of each and the highest, and emits all with the run's
   last block.

   Record:   32 bytes, 16 in a block: a price (u32) at byte 8, a kind at byte 12, of which the low 4 bits count
   Block:    512 bytes
   Emit:     258, a record of 256 bytes: 16 times struct total
   Argument: none */
#include "pifnjarl.h"

struct total { u64 sum; u32 count, most; };

long sums(const struct context *context, const u8 *block, u8 *scratch)
{
#pragma unroll
    for (int i = 0; i < 16; i++) {
        const u8 *record = block + 32 * i;
        struct total *total = (struct total *)(scratch + 16 * (record[12] & 15));
        u32 price = *(const u32 *)(record + 8);

        total->sum += price;
        total->count += 1;
        if (price > total->most)
            total->most = price;
    }
    if (context->index + 1 == context->count)
        emit(scratch, 256);
    return 0;
}
