/* Fields of the record that the block names: emits those whose bit the argument has, and adds their number and the sum of
   all four to scratch.

   Record:   64 bytes, 8 in a block: fields of 8 bytes at bytes 8, 16, 24 and 32; the record's number (its low 3 bits) is the
             block's byte 0
   Block:    512 bytes
   Emit:     40, four records of 8 bytes
   Argument: a bit for each field, the lowest for the first
   Kept:     the addresses of the context and of scratch, over the emits */
#include "pifnjarl.h"

#define STEP(i) \
    sum += le64(record, 8 * (i) + 8); \
    if (context->argument & 1 << (i)) { \
        emit(record + 8 * (i) + 8, 8); \
        fields++; \
    }

long fields(const struct context *context, const u8 *block, u8 *scratch)
{
    const u8 *record = block + 64 * masked(block[0], 7);
    u64 *left = (u64 *)scratch;
    u64 fields = 0, sum = 0;

    STEPS_4(STEP, 0)
    left[0] += fields;
    left[1] += sum;
    return 0;
}
