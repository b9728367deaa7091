/* Looks at 48 bytes one by one for the end of a line, and counts those before it that are no ASCII; emits where the line ends and the
 * count. */
#include "pifnjarl.h"

#define STEP(i) \
    if (block[i] == '\n' || block[i] == '\r' || block[i] == 0x7f) { \
        at = i; \
        goto found; \
    } \
    if (block[i] >= 0x80) \
        long_ones++;

long scan(const struct context *context, const u8 *block, u8 *scratch)
{
    u64 at = 48, long_ones = 0;

    STEPS_16(STEP, 0)
    STEPS_32(STEP, 16)
found:
    scratch[0] = at;
    scratch[1] = long_ones;
    emit(scratch, 2);
    return 0;
}
