/* Refused: a signed compare bounds nothing, and the length's sign is extended by shifts. */
#include "pifnjarl.h"

long signed_length(const struct context *context, const u8 *block)
{
    int length = *(const int *)block;

    if (length >= 1 && length <= 64)
        emit(block + 4, length);
    return 0;
}
