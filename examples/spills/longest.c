/* The longest of four: emits the four entries that a directory names, and then the longest of them again, of equally long
   ones the first. The sum of their lengths is added to one in scratch.

   Record:   4 times an entry's offset and length (u16 each) at the block's start; an entry has 1 to 32 bytes and begins at
             byte 448 at the latest, and one that doesn't ends the block
   Block:    512 bytes
   Emit:     170, five records of at most 32 bytes
   Argument: none
   Kept:     the length of the entry that is emitted, and the offset of the longest so far, which a step's branches leave in
             one place */
#include "pifnjarl.h"

#define STEP(i) \
    at = le16(block, 4 * (i)); \
    length = le16(block, 4 * (i) + 2); \
    if (at > 448 || !is_within(length, 1, 32)) \
        return 0; \
    emit(block + at, length); \
    *bytes += length; \
    if (length > longest) { \
        longest = length; \
        where = at; \
    }

long longest(const struct context *context, const u8 *block, u8 *scratch)
{
    u64 *bytes = (u64 *)scratch;
    u64 at, length, longest = 1, where = le16(block, 0);

    if (where > 448)
        return 0;
    STEPS_4(STEP, 0)
    emit(block + where, longest);
    return 0;
}
