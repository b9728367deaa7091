/* A sample by hash: emits the key and the value of some of the records. Whether a record is taken depends on its key
   alone: so each run takes the same ones, and two tables are sampled by the same keys.

   Record:   64 bytes, 8 in a block: a key (u64) at byte 0, a value (u64) at byte 8
   Block:    512 bytes
   Emit:     144, 8 records of 16 bytes
   Argument: how many of 256 keys are taken, 0 to 256 */
#include "pifnjarl.h"

long sample(const struct context *context, const u8 *block)
{
#pragma unroll
    for (int i = 0; i < 8; i++) {
        u64 hash = le64(block, 64 * i) * 0x9e3779b97f4a7c15ull;

        if (hash >> 56 < context->argument)
            emit(block + 64 * i, 16);
    }
    return 0;
}
