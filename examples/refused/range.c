/* Refused where clang may fold two compares: it compares a copy less 1, so that the length itself stays unbounded. */
#include "pifnjarl.h"

long range(const struct context *context, const u8 *block)
{
    u16 length = le16(block, 0);

    if (length >= 1 && length <= 64)
        emit(block + 2, length);
    return 0;
}
