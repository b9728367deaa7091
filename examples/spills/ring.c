/* The block before: scratch has a ring of the last 8 blocks' first 16 bytes. Emits, of the three that the argument asks
   for, the block's own, those that its place in the ring had, and those of the place that the block names; puts its own
   into the ring, and adds to a number in scratch how many were emitted.

   Record:   16 bytes at the block's start: the place that it names (its low 3 bits) at byte 0
   Block:    512 bytes
   Emit:     54, three records of 16 bytes
   Argument: a bit for each of the three, the lowest for the first
   Kept:     the addresses of scratch and of the block, over the emits */
#include "pifnjarl.h"

long ring(const struct context *context, const u8 *block, u8 *scratch)
{
    u64 *place = (u64 *)(scratch + 16 * (context->index & 7));
    u64 *named = (u64 *)(scratch + 16 * masked(block[0], 7));
    u64 emitted = 0;

    if (context->argument & 1) {
        emit(block, 16);
        emitted++;
    }
    if (context->argument & 2) {
        emit(place, 16);
        emitted++;
    }
    if (context->argument & 4) {
        emit(named, 16);
        emitted++;
    }
    place[0] = le64(block, 0);
    place[1] = le64(block, 8);
    *(u64 *)(scratch + 128) += emitted;
    return 0;
}
