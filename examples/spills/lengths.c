/* Names and values: emits a block's three values, each behind its name, and leaves in scratch how many bytes these had.

   Record:   the length of a name less 1 (u8, its low 3 bits) and of its value less 1 (u8, its low 4 bits), three times at
             the block's start; pairs of 64 bytes from byte 64 on: a name at byte 0, a value at byte 32
   Block:    512 bytes
   Emit:     84, three records of at most 8 and three of at most 16 bytes
   Argument: none
   Kept:     lengths, with their bounds, and the addresses of the context and of scratch, over the emits. The lengths have
             64 bits: those of 32 would be stored by their 4 bytes, which keep no range */
#include "pifnjarl.h"

long lengths(const struct context *context, const u8 *block, u8 *scratch)
{
    u64 name[3], value[3], bytes = 0;

#pragma unroll
    for (int i = 0; i < 3; i++) {
        name[i] = 1 + masked(block[2 * i], 7);
        value[i] = 1 + masked(block[2 * i + 1], 15);
        bytes += name[i] + value[i];
    }
#pragma unroll
    for (int i = 0; i < 3; i++) {
        emit(block + 64 * (i + 1), name[i]);
        emit(block + 64 * (i + 1) + 32, value[i]);
    }
    ((u64 *)scratch)[context->index & 127] = bytes;
    return 0;
}
