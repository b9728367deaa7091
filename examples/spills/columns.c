/* Two columns, of offsets and widths that the block's head tells, of three rows: emits each row's two cells, and
   adds the two widths to a sum in scratch.

   Record:   the head: for each column its offset (u8, its low 5 bits) and its width less 1 (u8, its low 3 bits), at bytes 0
             to 3; rows of 64 bytes from byte 64 on
   Block:    512 bytes
   Emit:     60, six records of at most 8 bytes
   Argument: none
   Kept:     the columns' offsets, each at most 31, and the address of scratch, over the emits */
#include "pifnjarl.h"

static inline void put(const u8 *row, u64 offset, u64 width)
{
    emit(row + offset, width);
}

long columns(const struct context *context, const u8 *block, u8 *scratch)
{
    u64 first = masked(block[0], 31), first_width = 1 + masked(block[1], 7);
    u64 second = masked(block[2], 31), second_width = 1 + masked(block[3], 7);

#pragma unroll
    for (int row = 1; row <= 3; row++) {
        put(block + 64 * row, first, first_width);
        put(block + 64 * row, second, second_width);
    }
    *(u64 *)scratch += first_width + second_width;
    return 0;
}
