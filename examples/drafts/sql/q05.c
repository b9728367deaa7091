/* SELECT id, CASE WHEN amount < 0 THEN 'refund' WHEN amount < 10000 THEN 'small' ELSE 'large' END FROM payments WHERE status <> 3

   Rows:     32 bytes, 16 in a block of 512: nulls (u32), status (u32), id (u64), amount (i64), 8 more
   Answer:   of each such row its id and the word, filled with zeros to 8 bytes; a null amount is 'large' */
#include "rows.h"

struct row { u32 nulls; u32 status; u64 id; long long amount; u8 rest[8]; };
struct out { u64 c0; char c1[8]; };

static const char case0[3][8] = { "refund", "small", "large" };

long q05(const struct context *context, const u8 *block)
{
    for (int r0 = 0; r0 < 16; r0++) {
        const struct row *row = (const struct row *)(block + r0 * 32);
        int t0 = IS_NULL(row, 0) ? UNKNOWN : row->status != 3;
        int t1, t2;
        u32 k0;
        struct out out;

        if (t0 != TRUE)
            continue;
        t1 = IS_NULL(row, 2) ? UNKNOWN : row->amount < 0;
        t2 = IS_NULL(row, 2) ? UNKNOWN : row->amount < 10000;
        k0 = t1 == TRUE ? 0 : t2 == TRUE ? 1 : 2;
        out.c0 = row->id;
        __builtin_memcpy(out.c1, case0[k0], 8);
        emit(&out, sizeof(out));
    }
    return 0;
}
