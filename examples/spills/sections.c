/* A directory that is read first, and then the five sections that it names: emits the first 4 bytes of each.

   Record:   5 offsets (u16) at the block's start, of which the low 8 bits count
   Block:    512 bytes
   Emit:     30, five records of 4 bytes
   Argument: none
   Kept:     an offset, which is at most 255, over the emits of the sections before */
#include "pifnjarl.h"

long sections(const struct context *context, const u8 *block)
{
    u64 first = masked(le16(block, 0), 255), second = masked(le16(block, 2), 255);
    u64 third = masked(le16(block, 4), 255), fourth = masked(le16(block, 6), 255);
    u64 fifth = masked(le16(block, 8), 255);

    emit(block + first, 4);
    emit(block + second, 4);
    emit(block + third, 4);
    emit(block + fourth, 4);
    emit(block + fifth, 4);
    return 0;
}
