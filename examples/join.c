/* A dictionary: emits the records whose key is one of 16 at the block's end. A search halves the dictionary without a branch:
   a difference below 0 has all bits above its low 16.

   Record:   32 bytes, 8 at the block's start: a key (u16) at byte 2
   Block:    512 bytes; the dictionary, 16 keys (u16) in order, is its last 32
   Emit:     272, 8 records of 32 bytes
   Argument: none */
#include "pifnjarl.h"

long join(const struct context *context, const u8 *block)
{
#pragma unroll
    for (int i = 0; i < 8; i++) {
        const u8 *record = block + 32 * i;
        const u16 *at = (const u16 *)(block + 480);
        u64 key = *(const u16 *)(record + 2);

        at += (at[8] - key - 1) >> 16 & 8;
        at += (at[4] - key - 1) >> 16 & 4;
        at += (at[2] - key - 1) >> 16 & 2;
        at += (at[1] - key - 1) >> 16 & 1;
        if (*at == key)
            emit(record, 32);
    }
    return 0;
}
