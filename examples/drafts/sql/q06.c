/* SELECT id FROM events WHERE YEAR(at) = :argument AND kind % 4 = 1      -- at: seconds since 1970

   Rows:     16 bytes, 32 in a block of 512: id (u32), kind (u32), at (u64); without nulls
   Answer:   of each such row its id, 4 bytes */
#include "rows.h"

struct row { u32 id; u32 kind; u64 at; };

/* days since 1 March of year 0, in eras of 400 years */
static u32 year_of(u64 seconds)
{
    u64 days = seconds / 86400 + 719468;
    u64 era = days / 146097;
    u64 doe = days % 146097;
    u64 yoe = (doe - doe / 1460 + doe / 36524 - doe / 146096) / 365;
    u64 doy = doe - (365 * yoe + yoe / 4 - yoe / 100);

    return yoe + era * 400 + (doy >= 306);
}

long q06(const struct context *context, const u8 *block)
{
    for (int r0 = 0; r0 < 32; r0++) {
        const struct row *row = (const struct row *)(block + r0 * 16);
        int t0 = year_of(row->at) == context->argument;
        int t1 = row->kind % 4 == 1;

        if (AND(t0, t1) == TRUE)
            emit(&row->id, 4);
    }
    return 0;
}
