/* SELECT SUBSTR(text, start, 16) FROM notes WHERE LENGTH(text) >= start + 16 AND NOT (flags & 1 = 1)

   Rows:     128 bytes, 4 in a block of 512: flags (u8), length (u8), start (u8), nulls (u8), text (at most 124 bytes)
   Answer:   of each such row the 16 bytes of its text from start on, which counts from 0 */
#include "rows.h"

struct row { u8 flags; u8 n0; u8 start; u8 nulls; u8 text[124]; };

long q09(const struct context *context, const u8 *block)
{
    for (int r0 = 0; r0 < 4; r0++) {
        const struct row *row = (const struct row *)(block + r0 * 128);
        int n0 = row->n0 > 124 ? 124 : row->n0;
        int t0 = IS_NULL(row, 0) ? UNKNOWN : n0 >= row->start + 16;
        int t1 = (row->flags & 1) == 1;
        int t2 = NOT(t1);
        int t3 = AND(t0, t2);

        if (t3 == TRUE)
            emit(row->text + row->start, 16);
    }
    return 0;
}
