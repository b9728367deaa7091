/* The least and the greatest of four records: emits both, and leaves their measures and the block's LBA in scratch.

   Record:   64 bytes, the first 4 of a block: a measure (u32) at byte 4
   Block:    512 bytes
   Emit:     36, two records of 16 bytes: a record's first
   Argument: none
   Kept:     the address of the record that is the greatest so far, which branches leave in one place, that of the fourth
             record, and those of scratch and of the context, over the emits */
#include "pifnjarl.h"

#define STEP(i) \
    record = block + 64 * (i); \
    measure = le32(record, 4); \
    if (measure < least) { \
        least = measure; \
        low = record; \
    } \
    if (measure > greatest) { \
        greatest = measure; \
        high = record; \
    }

long extremes(const struct context *context, const u8 *block, u8 *scratch)
{
    u64 *found = (u64 *)scratch;
    const u8 *record, *low = block, *high = block;
    u64 measure, least = le32(block, 4), greatest = least;

    STEPS_4(STEP, 0)
    emit(low, 16);
    emit(high, 16);
    found[0] = least;
    found[1] = greatest;
    found[2] = context->lba;
    return 0;
}
