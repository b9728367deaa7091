/* SELECT MIN(temperature), MAX(temperature), COUNT(temperature) FROM readings WHERE sensor IN (3, 7, 12, 40)

   Rows:     16 bytes, 32 in a block of 512: nulls (u16), sensor (u16), temperature (i32), time (u64)
   Scratch:  MIN (i32), MAX (i32), COUNT (u64)
   Answer:   in scratch the three; MIN and MAX say something where COUNT is not 0 */
#include "rows.h"

struct row { u16 nulls; u16 sensor; int temperature; u64 time; };
struct aggregate { int a0; int a1; u64 a2; };

static const u16 in0[4] = { 3, 7, 12, 40 };

long q04(const struct context *context, const u8 *block, u8 *scratch)
{
    struct aggregate *a = (struct aggregate *)scratch;

    for (int r0 = 0; r0 < 32; r0++) {
        const struct row *row = (const struct row *)(block + r0 * 16);
        int t0 = FALSE;

        for (int i0 = 0; i0 < 4; i0++)
            t0 = OR(t0, row->sensor == in0[i0]);
        if (IS_NULL(row, 0) || t0 != TRUE || IS_NULL(row, 1))
            continue;
        if (a->a2 == 0 || row->temperature < a->a0)
            a->a0 = row->temperature;
        if (a->a2 == 0 || row->temperature > a->a1)
            a->a1 = row->temperature;
        a->a2 += 1;
    }
    return 0;
}
