/* Records of a run: emits each of a block's four readings that is above all before it, in this block and the blocks before,
   and keeps the greatest, the number of such readings, the sum of all and the block's LBA in scratch.

   Record:   16 bytes, the first 4 of a block: a measure (u64) at byte 8
   Block:    512 bytes
   Emit:     72, four records of 16 bytes
   Argument: none
   Kept:     the address of the context, over the emits */
#include "pifnjarl.h"

#define STEP(i) \
    measure = le64(block, 16 * (i) + 8); \
    if (measure > greatest) { \
        greatest = measure; \
        emit(block + 16 * (i), 16); \
        number++; \
    } \
    sum += measure;

long rising(const struct context *context, const u8 *block, u8 *scratch)
{
    u64 *kept = (u64 *)scratch;
    u64 greatest = kept[0], number = 0, sum = 0, measure;

    STEPS_4(STEP, 0)
    kept[0] = greatest;
    kept[1] += number;
    kept[2] += sum;
    kept[3] = context->lba;
    return 0;
}
