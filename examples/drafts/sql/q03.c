/* SELECT * FROM users WHERE name LIKE 'Mar%' OR name LIKE '%son'

   Rows:     64 bytes, 8 in a block of 512: nulls (u32), id (u32), length of the name (u8), name (at most 47 bytes), 8 more
   Answer:   each such row without its last 8 bytes, 56 bytes */
#include "rows.h"

struct row { u32 nulls; u32 id; u8 n0; u8 name[47]; u8 rest[8]; };

static int like_prefix(const u8 *s, u32 n, const char *p, u32 m)
{
    if (n < m)
        return FALSE;
    for (u32 i = 0; i < m; i++)
        if (s[i] != (u8)p[i])
            return FALSE;
    return TRUE;
}

static int like_suffix(const u8 *s, u32 n, const char *p, u32 m)
{
    if (n < m)
        return FALSE;
    for (u32 i = 0; i < m; i++)
        if (s[n - m + i] != (u8)p[i])
            return FALSE;
    return TRUE;
}

long q03(const struct context *context, const u8 *block)
{
    for (int r0 = 0; r0 < 8; r0++) {
        const struct row *row = (const struct row *)(block + r0 * 64);
        u32 n0 = row->n0 > 47 ? 47 : row->n0;
        int t0 = IS_NULL(row, 1) ? UNKNOWN : like_prefix(row->name, n0, "Mar", 3);
        int t1 = IS_NULL(row, 1) ? UNKNOWN : like_suffix(row->name, n0, "son", 3);
        int t2 = OR(t0, t1);

        if (t2 == TRUE)
            emit(row, 56);
    }
    return 0;
}
