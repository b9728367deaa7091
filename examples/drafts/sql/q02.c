/* SELECT region, COUNT(*), SUM(price) FROM items GROUP BY region      -- regions 0 to 31

   Rows:     64 bytes, 8 in a block of 512, as of q01
   Scratch:  32 groups of 16 bytes: COUNT(*) (u64), SUM(price) (i64)
   Answer:   in scratch the groups; rows whose region is null, or not below 32, are in none */
#include "rows.h"

struct row { u32 nulls; u32 region; u64 id; long long price; u8 rest[40]; };
struct group { u64 a0; long long a1; };

long q02(const struct context *context, const u8 *block, u8 *scratch)
{
    struct group *groups = (struct group *)scratch;

    for (int r0 = 0; r0 < 8; r0++) {
        const struct row *row = (const struct row *)(block + r0 * 64);
        struct group *g;

        if (IS_NULL(row, 0) || row->region >= 32)
            continue;
        g = &groups[row->region];
        g->a0 += 1;
        if (!IS_NULL(row, 2))
            g->a1 += row->price;
    }
    return 0;
}
