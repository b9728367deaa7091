/* Which records match, in place of the records: emits a block's LBA and a bit for each of its records whose level
   is at least the argument's, where there is one. All 8 whole, with their lengths, would be more than a block.

   Record:   64 bytes, 8 in a block: a level (u32) at byte 12
   Block:    512 bytes
   Emit:     18, a record of 16 bytes: the block's LBA (u64), and the bits (u64), the lowest for the first record
   Argument: the least level */
#include "pifnjarl.h"

long matches(const struct context *context, const u8 *block)
{
    struct { u64 lba, bits; } found = {context->lba, 0};

#pragma unroll
    for (int i = 0; i < 8; i++)
        if (le32(block, 64 * i + 12) >= context->argument)
            found.bits |= 1 << i;
    if (found.bits)
        emit_field(found);
    return 0;
}
