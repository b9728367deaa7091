/* A filter by prefix: emits what follows the first 4 bytes of each record whose name begins with those of the argument.

   Record:   64 bytes, 8 in a block: a name of 48 bytes, and 16 more
   Block:    512 bytes
   Emit:     496, 8 records of 60 bytes: the first 4 are the argument, and needn't be emitted
   Argument: 4 bytes, the first in the lowest 8 bits */
#include "pifnjarl.h"

long prefix(const struct context *context, const u8 *block)
{
#pragma unroll
    for (int i = 0; i < 8; i++)
        if (le32(block, 64 * i) == context->argument)
            emit(block + 64 * i + 4, 60);
    return 0;
}
