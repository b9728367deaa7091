/* Each key once: emits those of a block's four records whose key isn't in its place of a table in scratch, where it then
   is. Behind the table these and the others are counted, and the block's LBA is left.

   Record:   16 bytes, the first 4 of a block: a key (u64), not 0, at byte 0
   Block:    512 bytes
   Emit:     72, four records of 16 bytes
   Argument: none
   Kept:     the address of the context, over the emits, and counts, which branches leave in one place */
#include "pifnjarl.h"

#define STEP(i) \
    record = block + 16 * (i); \
    key = le64(record, 0); \
    place = masked(key, 63); \
    if (table[place] != key) { \
        emit(record, 16); \
        table[place] = key; \
        fresh++; \
    } else { \
        again++; \
    }

long dedup(const struct context *context, const u8 *block, u8 *scratch)
{
    u64 *table = (u64 *)scratch;
    u64 key, place, fresh = 0, again = 0;
    const u8 *record;

    STEPS_4(STEP, 0)
    table[64] += fresh;
    table[65] += again;
    table[66] = context->lba;
    return 0;
}
