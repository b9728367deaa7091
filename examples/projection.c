/* A projection: emits two fields of the block, its key and its price, side by side.

   Record:   one at the block's start: a key (u64) at byte 0, a price (u32) at byte 24
   Block:    512 bytes
   Emit:     18, a record of 16 bytes: the key (u64) and the price (u64)
   Argument: none */
#include "pifnjarl.h"

long projection(const struct context *context, const u8 *block, u8 *scratch)
{
    *(u64 *)scratch = le64(block, 0);
    *(u64 *)(scratch + 8) = le32(block, 24);
    emit(scratch, 16);
    return 0;
}
