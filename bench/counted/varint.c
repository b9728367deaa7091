/* The sum of 4 numbers of up to three groups of 7 bits, each in four bytes, emitted. */
#include "pifnjarl.h"

#define STEP(i) { \
    u64 a = block[4 * (i)], n = a & 0x7f; \
    if (a & 0x80) { \
        u64 b = block[4 * (i) + 1]; \
        n |= (b & 0x7f) << 7; \
        if (b & 0x80) \
            n |= (u64)(block[4 * (i) + 2] & 0x7f) << 14; \
    } \
    sum += n; }

long varint(const struct context *context, const u8 *block)
{
    u64 sum = 0;

    STEPS_4(STEP, 0)
    emit(&sum, 8);
    return 0;
}
