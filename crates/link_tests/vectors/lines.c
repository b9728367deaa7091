/* An instruction of this file, one of a header, and ones of no line. */
#include "lines.h"

long filter(const void *context, const u8 *block)
{
    u64 i = first(block);

    if (i > 9)
        emit(block + i, 5);
    return 0;
}
