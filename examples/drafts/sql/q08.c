/* SELECT o.id, o.customer, c.discount FROM orders o JOIN customers c ON o.customer = c.id WHERE c.discount > 0
                                                                    -- customers: a table of 8 rows, written into the query

   Rows:     32 bytes, 16 in a block of 512: id (u64), customer (u32), 20 more
   Answer:   of each such pair of rows id (u64), customer (u32) and discount (u32) */
#include "rows.h"

struct row { u64 id; u32 customer; u8 rest[20]; };
struct build { u32 id; u32 discount; };
struct out { u64 c0; u32 c1; u32 c2; };

static const struct build build0[8] = {
    { 17, 5 }, { 18, 0 }, { 44, 10 }, { 45, 10 }, { 90, 0 }, { 91, 15 }, { 120, 20 }, { 300, 1 },
};

static const struct build *probe0(u32 key)
{
    for (int i = 0; i < 8; i++)
        if (build0[i].id == key)
            return &build0[i];
    return 0;
}

long q08(const struct context *context, const u8 *block)
{
    for (int r0 = 0; r0 < 16; r0++) {
        const struct row *row = (const struct row *)(block + r0 * 32);
        const struct build *b0 = probe0(row->customer);
        struct out out;

        if (!b0 || !(b0->discount > 0))
            continue;
        out.c0 = row->id;
        out.c1 = row->customer;
        out.c2 = b0->discount;
        emit(&out, sizeof(out));
    }
    return 0;
}
