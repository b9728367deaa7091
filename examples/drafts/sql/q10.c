/* SELECT id, score FROM players ORDER BY score DESC LIMIT 5

   Rows:     16 bytes, 32 in a block of 512: id (u64), score (i32), 4 more
   Scratch:  a count (u64), and at most 5 rows of 16 bytes: id (u64), score (i32), 4 zeros, the highest score first
   Answer:   in scratch the five rows of the run with the highest scores, of equal ones the earlier */
#include "rows.h"

struct row { u64 id; int score; u32 rest; };
struct top { u64 count; struct row rows[5]; };

long q10(const struct context *context, const u8 *block, u8 *scratch)
{
    struct top *top = (struct top *)scratch;

    for (int r0 = 0; r0 < 32; r0++) {
        const struct row *row = (const struct row *)(block + r0 * 16);
        int i = top->count < 5 ? (int)top->count : 4;

        if (top->count == 5 && row->score <= top->rows[4].score)
            continue;
        while (i > 0 && top->rows[i - 1].score < row->score) {
            top->rows[i] = top->rows[i - 1];
            i--;
        }
        top->rows[i].id = row->id;
        top->rows[i].score = row->score;
        top->rows[i].rest = 0;
        if (top->count < 5)
            top->count++;
    }
    return 0;
}
