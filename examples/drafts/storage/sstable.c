/* Entries of a sorted table, one behind the other: a key's length (u16), a value's length (u16), the key, the value. Emits each
   entry whose key begins with the four bytes of the argument, lowest byte first.

   Block:    512 bytes; an entry with a key of length 0 is the last
   Answer:   the entries that begin so, whole, in order */
#include "../../pifnjarl.h"

struct entry {
    u16 key_length;
    u16 value_length;
    u8 bytes[];
};

long sstable(const struct context *context, const u8 *block)
{
    u32 at = 0;

    while (at + sizeof(struct entry) <= context->block_size) {
        const struct entry *entry = (const struct entry *)(block + at);
        u32 size = sizeof(struct entry) + entry->key_length + entry->value_length;

        if (entry->key_length == 0 || at + size > context->block_size)
            break;
        if (entry->key_length >= 4 && __builtin_memcmp(entry->bytes, &context->argument, 4) == 0)
            emit(entry, size);
        at += size;
    }
    return 0;
}
