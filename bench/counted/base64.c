/* Decodes 4 letters of base64, emits 3 bytes; what is no letter counts as 0. */
#include "pifnjarl.h"

static u64 value(u64 c)
{
    if (c >= 'A' && c <= 'Z') return c - 'A';
    if (c >= 'a' && c <= 'z') return c - 'a' + 26;
    if (c >= '0' && c <= '9') return c - '0' + 52;
    if (c == '+') return 62;
    if (c == '/') return 63;
    return 0;
}

#define STEP(i) { \
    u64 w = value(block[4 * (i)]) << 18 | value(block[4 * (i) + 1]) << 12 | value(block[4 * (i) + 2]) << 6 | value(block[4 * (i) + 3]); \
    scratch[3 * (i)] = w >> 16; scratch[3 * (i) + 1] = w >> 8; scratch[3 * (i) + 2] = w; }

long base64(const struct context *context, const u8 *block, u8 *scratch)
{
    STEP(0)
    emit(scratch, 3);
    return 0;
}
