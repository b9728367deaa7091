/* A walk over records of different lengths: emits the data of those of a kind, up to the first with another length than
   1 to 60, and of 8 at most.

   Record:   a length, a kind, and so many bytes of data; a length of 0 ends the block
   Block:    512 bytes
   Emit:     496, 8 records of 60 bytes
   Argument: the kind */
#include "pifnjarl.h"

/* Seven records of 62 bytes may come first, and end at byte 434: so all of the next lies within the block. */
#define STEP(i) \
    length = record[0]; \
    if (!is_within(length, 1, 60)) \
        return 0; \
    if (record[1] == context->argument) \
        emit(record + 2, length); \
    record += 2 + length;

long records(const struct context *context, const u8 *block)
{
    const u8 *record = block;
    u64 length;

    STEPS_8(STEP, 0)
    return 0;
}
