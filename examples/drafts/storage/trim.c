/* Blocks of a thin volume: emits the LBA of each that is all zeros, so that it can be given back.

   Block:    4096 bytes
   Answer:   the LBA (u64) of each block of the run that has no byte but 0 */
#include "../../pifnjarl.h"

static int is_zero(const u64 *words, u32 count)
{
    u64 all = 0;

    for (u32 i = 0; i < count; i++)
        all |= words[i];
    return all == 0;
}

long trim(const struct context *context, const u8 *block)
{
    if (is_zero((const u64 *)block, context->block_size / 8))
        emit(&context->lba, sizeof context->lba);
    return 0;
}
