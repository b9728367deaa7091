/* A time window: emits the beginnings of the events of an hour.

   Record:   64 bytes, 8 in a block: a time in seconds (u64) at byte 0, a code (u64) at byte 8
   Block:    512 bytes
   Emit:     144, 8 records of 16 bytes: the time and the code
   Argument: the hour's first second */
#include "pifnjarl.h"

enum { SECONDS = 3600 };

long window(const struct context *context, const u8 *block)
{
#pragma unroll
    for (int i = 0; i < 8; i++)
        if (le64(block, 64 * i) - context->argument < SECONDS)
            emit(block + 64 * i, 16);
    return 0;
}
