/* Accesses of keys (u32): a table of the sixteen that came last, with counts, in scratch.

   Block:    512 bytes: 16 keys, and bytes that hold nothing
   Scratch:  16 entries of 16 bytes: key (u32), count (u32), when it was last (u64)
   Answer:   in scratch the table; each key that goes out of it is emitted with its entry */
#include "types.h"

struct entry {
    __u32 key;
    __u32 count;
    __u64 last;
};

static struct entry *lookup(struct entry *table, __u32 key, __u64 now)
{
    struct entry *oldest = table;

    for (int i = 0; i < 16; i++) {
        if (table[i].count && table[i].key == key)
            return &table[i];
        if (table[i].last < oldest->last)
            oldest = &table[i];
    }
    if (oldest->count)
        emit(oldest, sizeof(*oldest));
    oldest->key = key;
    oldest->count = 0;
    return oldest;
}

SEC("scan")
long lru(const struct context *ctx, const __u32 *keys, struct entry *table)
{
    for (int i = 0; i < 16; i++) {
        __u64 now = ctx->index * 16ull + i + 1;
        struct entry *entry = lookup(table, keys[i], now);

        entry->count++;
        entry->last = now;
    }
    return 0;
}
