/* A record behind what says where it is: emits the block's LBA with the record's offset and length, which it keeps in a
   structure on the stack, and then the record.

   Record:   one in a block: its offset (its low 7 bits) at byte 0, its length less 1 (its low 4 bits) at byte 1
   Block:    512 bytes
   Emit:     44, records of 24 and of at most 16 bytes
   Argument: none
   Kept:     the structure's fields, of 8 bytes each, which are read again behind the emit of all of it */
#include "pifnjarl.h"

struct place {
    u64 lba;
    u64 offset;
    u64 length;
};

long places(const struct context *context, const u8 *block)
{
    struct place place = {
        .lba = context->lba,
        .offset = masked(block[0], 127),
        .length = 1 + masked(block[1], 15),
    };

    emit_field(place);
    emit(block + place.offset, place.length);
    return 0;
}
