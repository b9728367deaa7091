/* A filter by a field: emits the block's record where its field at byte 8 is the run's argument.

   Record:   64 bytes, one at the block's start: a field (u32) at byte 8
   Block:    512 bytes
   Emit:     66, a record of 64 bytes
   Argument: the field's value */
#include "pifnjarl.h"

long filter(const struct context *context, const u8 *block)
{
    if (le32(block, 8) == context->argument)
        emit(block, 64);
    return 0;
}
