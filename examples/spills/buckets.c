/* A histogram that shows its first values: counts the values of a byte, by its low 6 bits, in 64 buckets of scratch, and
   emits the record where its bucket was empty. Behind the buckets the number of these records is added up, and the block's
   LBA is left.

   Record:   32 bytes, the first 4 of a block: the byte that is counted is byte 5
   Block:    512 bytes
   Emit:     40, four records of 8 bytes: a record's first
   Argument: what each record adds to its bucket
   Kept:     the address of the context, over the emits */
#include "pifnjarl.h"

#define STEP(i) \
    record = block + 32 * (i); \
    bucket = (u64 *)scratch + masked(record[5], 63); \
    if (*bucket == 0) { \
        emit(record, 8); \
        shown++; \
    } \
    *bucket += weight;

long buckets(const struct context *context, const u8 *block, u8 *scratch)
{
    u64 weight = context->argument, shown = 0;
    const u8 *record;
    u64 *bucket;

    STEPS_4(STEP, 0)
    ((u64 *)scratch)[64] += shown;
    ((u64 *)scratch)[65] = context->lba;
    return 0;
}
