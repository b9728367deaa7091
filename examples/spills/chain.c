/* A chain of entries, each of which names the next: emits four of them as it comes by, then the last of the four and the
   first again, and adds to scratch how far the one is behind the other. An entry that has the argument ends the block: from
   it on nothing is emitted or added.

   Record:   16 bytes, 16 at the block's start: the number of the next entry (its low 4 bits) at byte 0, what is compared
             with the argument at byte 1; the first entry's number (its low 4 bits) is the block's byte 256
   Block:    512 bytes
   Emit:     108, six records of 16 bytes
   Argument: what ends the chain
   Kept:     the address of scratch, over the emits */
#include "pifnjarl.h"

#define STEP(i) \
    if (at[1] == context->argument) \
        return 0; \
    last = at; \
    emit(at, 16); \
    at = block + 16 * masked(at[0], 15);

long chain(const struct context *context, const u8 *block, u8 *scratch)
{
    const u8 *first = block + 16 * masked(block[256], 15), *at = first, *last;

    STEPS_4(STEP, 0)
    emit(last, 16);
    emit(first, 16);
    *(u64 *)scratch += last - first;
    return 0;
}
