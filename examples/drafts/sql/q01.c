/* SELECT id, price FROM items WHERE region = :argument AND price BETWEEN 1000 AND 50000

   Rows:     64 bytes, 8 in a block of 512: nulls (u32), region (u32), id (u64), price (i64), 40 more
   Answer:   of each such row id and price, 16 bytes; a row with a null among the three columns is none */
#include "rows.h"

struct row { u32 nulls; u32 region; u64 id; long long price; u8 rest[40]; };
struct out { u64 c0; long long c1; };

long q01(const struct context *context, const u8 *block)
{
    for (int r0 = 0; r0 < 8; r0++) {
        const struct row *row = (const struct row *)(block + r0 * 64);
        int t0 = IS_NULL(row, 0) ? UNKNOWN : row->region == context->argument;
        int t1 = IS_NULL(row, 2) ? UNKNOWN : row->price >= 1000;
        int t2 = IS_NULL(row, 2) ? UNKNOWN : row->price <= 50000;
        int t3 = AND(t1, t2);
        int t4 = AND(t0, t3);

        if (t4 == TRUE) {
            struct out out;
            out.c0 = row->id;
            out.c1 = row->price;
            emit(&out, sizeof(out));
        }
    }
    return 0;
}
