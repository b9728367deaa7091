/* The ranks of a run: keeps the 4 greatest measures in scratch, each with its key, in order, and emits them with the run's
   last block. Of two it takes the greater and the lesser, without a branch in the C.

   Record:   64 bytes, the first 4 of a block: a key (u32) at byte 0, a measure (u32) at byte 16
   Block:    512 bytes
   Emit:     34, a record of 32 bytes: 4 times a key and a measure (u32 each)
   Argument: none
   Kept:     the address of the context, over steps that take all other registers */
#include "pifnjarl.h"

#define PLACE(j) \
    held = best[j]; \
    best[j] = next > held ? next : held; \
    next = next > held ? held : next;

#define STEP(i) \
    next = le32(block, 64 * (i) + 16) << 32 | le32(block, 64 * (i)); \
    PLACE(0) \
    PLACE(1) \
    PLACE(2) \
    PLACE(3)

long ranks(const struct context *context, const u8 *block, u8 *scratch)
{
    u64 *best = (u64 *)scratch;
    u64 next, held;

    STEPS_4(STEP, 0)
    if (context->index + 1 == context->count)
        emit(best, 32);
    return 0;
}
