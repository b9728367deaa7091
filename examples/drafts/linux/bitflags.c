/* Descriptors of pages, of 8 bytes: flags (u32), references (u16), order (u16). Counts the pages by their first flag, and emits those that
   are dirty and locked.

   Block:    512 bytes: 48 descriptors, and 128 bytes that hold nothing
   Scratch:  33 counts (u64): of the pages whose lowest flag is this one, the last of those without a flag
   Answer:   in scratch the counts; each descriptor with flags 0 (locked) and 4 (dirty) is emitted */
#include "types.h"

#define PG_locked (1 << 0)
#define PG_dirty (1 << 4)

struct page {
    __u32 flags;
    __u16 refs;
    __u16 order;
};

static __u32 first_flag(__u32 flags)
{
    __u32 n = 0;

    if (!flags)
        return 32;
    while (!(flags & 1)) {
        flags >>= 1;
        n++;
    }
    return n;
}

SEC("scan")
long bitflags(const struct context *ctx, struct page *page, __u64 *counts)
{
    for (int i = 0; i < 48; i++, page++) {
        counts[first_flag(page->flags)] += 1 << page->order;
        if ((page->flags & (PG_locked | PG_dirty)) == (PG_locked | PG_dirty))
            emit(page, sizeof(*page));
    }
    return 0;
}
