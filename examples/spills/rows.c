/* Rows that are put together on the stack: for each of four records whose field is above the argument emits the block's
   LBA, the record's number and the field; in scratch the last such field is left, the sum of all fields, and the block's
   index in the run.

   Record:   64 bytes, the first 4 of a block: a field (u32) at byte 12
   Block:    512 bytes
   Emit:     72, four records of 16 bytes
   Argument: what the field has to be above
   Kept:     the addresses of scratch and of the context, beside the row, which is on the stack too */
#include "pifnjarl.h"

struct row {
    u64 lba;
    u32 number;
    u32 field;
};

#define STEP(i) \
    field = le32(block, 64 * (i) + 12); \
    if (field > bound) { \
        row.number = (i); \
        row.field = field; \
        emit_field(row); \
        *last = field; \
    } \
    sum += field;

long rows(const struct context *context, const u8 *block, u8 *scratch)
{
    u64 *last = (u64 *)scratch;
    u64 bound = context->argument, sum = 0, field;
    struct row row = {.lba = context->lba};

    STEPS_4(STEP, 0)
    last[1] += sum;
    last[2] = context->index;
    return 0;
}
