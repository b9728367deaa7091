/* Two lists, by one function that is inlined twice: emits of each the number of its entries, and one entry where the
   argument is above the entry's first byte. Then as many bytes of another row as the shorter of the two entries has, and
   the lengths are added to two sums in scratch.

   Record:   two lists, at bytes 0 and 256: the entry's offset in the list (its low 7 bits), its length less 1 (its low 4
             bits), the number of entries (u16)
   Block:    512 bytes
   Emit:     62, records of 2 and of at most 16 bytes for each list, and one of at most 16
   Argument: the entries' bound
   Kept:     the addresses of the context and of scratch, over both calls. The bound, of 32 bits, is stored by its 4 bytes,
             which keep no range: it is compared and no more, so that none is needed */
#include "pifnjarl.h"

static inline u64 put(const u8 *list, u64 bound, u64 *bytes)
{
    const u8 *entry = list + masked(list[0], 127);
    u64 length = 1 + masked(list[1], 15);

    emit(list + 2, 2);
    if (entry[0] < bound)
        emit(entry, length);
    *bytes += length;
    return length;
}

long lists(const struct context *context, const u8 *block, u8 *scratch)
{
    u64 *bytes = (u64 *)scratch;
    u64 bound = context->argument;
    u64 first = put(block, bound, bytes);
    u64 second = put(block + 256, bound, bytes + 1);

    emit(block + 64 * (context->index & 3), first < second ? first : second);
    return 0;
}
