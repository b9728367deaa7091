/* Run lengths of 8 bytes: each byte that differs from the one before it ends a run; emits the longest run and the number of runs. */
#include "pifnjarl.h"

#define STEP(i) { \
    u64 c = block[i] >> 6; \
    if (c == before) { \
        length++; \
    } else { \
        if (length > longest) longest = length; \
        length = 1; \
        count++; \
        before = c; \
    } }

long runs(const struct context *context, const u8 *block, u8 *scratch)
{
    u64 before = 256, length = 0, longest = 0, count = 0;

    STEPS_8(STEP, 0)
    scratch[0] = longest;
    scratch[1] = count;
    emit(scratch, 2);
    return 0;
}
