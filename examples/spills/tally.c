/* A tally on the stack: counts four bytes by their low 2 bits in an array, emits the array, the record that the block
   names, and the block's first bytes where the argument asks for them, and adds four other bytes to a sum in scratch and the
   block's first word to an exclusive OR there.

   Record:   32 bytes at the block's start, whose bytes 0, 8, 16 and 24 are counted, and the ones behind these added; 4
             records of 8 bytes at byte 64, of which the low 2 bits of byte 63 name one
   Block:    512 bytes
   Emit:     54, records of 32, 8 and 8 bytes
   Argument: 0 for no first bytes
   Kept:     the address of the context, beside the array, into which stores go at an index that isn't known */
#include "pifnjarl.h"

#define STEP(i) \
    count[block[8 * (i)] & 3]++; \
    marked += block[8 * (i) + 1];

long tally(const struct context *context, const u8 *block, u8 *scratch)
{
    u64 count[4] = {0, 0, 0, 0};
    u64 *sum = (u64 *)scratch;
    const u8 *named = block + 64 + 8 * masked(block[63], 3);
    u64 head = le64(block, 0), marked = 0;

    STEPS_4(STEP, 0)
    emit_field(count);
    emit(named, 8);
    if (context->argument)
        emit(block, 8);
    sum[0] += marked;
    sum[1] ^= head;
    return 0;
}
