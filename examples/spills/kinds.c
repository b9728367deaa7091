/* A record of one of two kinds, each with its trailer elsewhere: emits its head, as long as the kind has it, two fields
   that both kinds have, and the trailer. Scratch has the number of records of either kind, and the block's LBA.

   Record:   a kind at byte 0; kind 1 has a head of 4 bytes at byte 8 and its trailer where byte 1 says, others a head of 12
             and the trailer 128 bytes behind where byte 2 says; bytes 3 and 4 say where the fields are, of 4 bytes each
   Block:    512 bytes
   Emit:     36, records of 12, 4, 4 and 8 bytes
   Argument: none
   Kept:     the offsets of the two fields, each at most 255, over the emit of either branch, and the address of the
             context */
#include "pifnjarl.h"

long kinds(const struct context *context, const u8 *block, u8 *scratch)
{
    u64 *counts = (u64 *)scratch;
    const u8 *first = block + block[3], *second = block + block[4];
    const u8 *trailer;

    if (block[0] == 1) {
        trailer = block + block[1];
        emit(block + 8, 4);
        counts[0]++;
    } else {
        trailer = block + 128 + block[2];
        emit(block + 8, 12);
        counts[1]++;
    }
    emit(first, 4);
    emit(second, 4);
    emit(trailer, 8);
    counts[2] = context->lba;
    return 0;
}
