/* How many letters of one, two, three and four bytes begin among the block's first 4 bytes, emitted. */
#include "pifnjarl.h"

#define STEP(i) { \
    u64 c = block[i]; \
    if (c < 0x80) one++; \
    else if (c >= 0xf0) four++; \
    else if (c >= 0xe0) three++; \
    else if (c >= 0xc0) two++; }

long utf8(const struct context *context, const u8 *block, u8 *scratch)
{
    u64 one = 0, two = 0, three = 0, four = 0;

    STEPS_4(STEP, 0)
    scratch[0] = one;
    scratch[1] = two;
    scratch[2] = three;
    scratch[3] = four;
    emit(scratch, 4);
    return 0;
}
