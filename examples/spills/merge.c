/* Two lists in order, merged: emits the four least of their entries in order, of equal ones the left list's first.
   Adds to two numbers in scratch how many are of either list, and leaves the block's LBA there.

   Record:   two lists of 4 entries of 16 bytes, at bytes 0 and 256: a key (u32) at byte 0
   Block:    512 bytes
   Emit:     72, four records of 16 bytes
   Argument: none
   Kept:     the address of the context, over the emits, and a count, which branches leave in one place */
#include "pifnjarl.h"

#define STEP(i) \
    if (le32(left, 0) <= le32(right, 0)) { \
        emit(left, 16); \
        left += 16; \
        from_left++; \
    } else { \
        emit(right, 16); \
        right += 16; \
        from_right++; \
    }

long merge(const struct context *context, const u8 *block, u8 *scratch)
{
    const u8 *left = block, *right = block + 256;
    u64 *taken = (u64 *)scratch;
    u64 from_left = 0, from_right = 0;

    STEPS_4(STEP, 0)
    taken[0] += from_left;
    taken[1] += from_right;
    taken[2] = context->lba;
    return 0;
}
