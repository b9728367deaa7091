/* Of 8 records of 48 bytes whose date, as days, is in the argument's month of 30 days, and whose discount is at most 100
   percent: emits the day of that month and the price less the discount. */
#include "pifnjarl.h"

long dates(const struct context *context, const u8 *block, u8 *scratch)
{
#pragma unroll
    for (int i = 0; i < 8; i++) {
        const u8 *row = block + 48 * i;
        u32 days = *(const u32 *)(row + 4), cents = *(const u32 *)(row + 8);
        u8 percent = row[12];

        if (days / 30 != context->argument || percent > 100)
            continue;
        *(u32 *)scratch = days % 30;
        *(u32 *)(scratch + 4) = cents - cents * percent / 100;
        emit(scratch, 8);
    }
    return 0;
}
