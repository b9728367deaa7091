/* A message with a header, a body and a note: emits the header and the body, and the note where the argument asks for it,
   and adds the body's length to a sum in scratch.

   Record:   one in a block: the offset of its body, its body's length and its note's offset (u16 each), a header of 8
             bytes at byte 8, a body of 1 to 64 bytes, at byte 384 at the latest, a note of 32, at byte 448 at the latest; of
             another block nothing is emitted
   Block:    512 bytes
   Emit:     110, records of 8, of at most 64 and of 32 bytes
   Argument: 0 for no note
   Kept:     the note's offset, which is at most 448, and the address of scratch, over the first two emits */
#include "pifnjarl.h"

long headers(const struct context *context, const u8 *block, u8 *scratch)
{
    u64 *bytes = (u64 *)scratch;
    u64 body = le16(block, 0), length = le16(block, 2), note = le16(block, 4);

    if (body > 384 || note > 448 || !is_within(length, 1, 64))
        return 0;
    emit(block + 8, 8);
    emit(block + body, length);
    if (context->argument)
        emit(block + note, 32);
    *bytes += length;
    return 0;
}
