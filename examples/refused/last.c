/* Refused: what the context holds isn't known, not even the size of a block. */
#include "pifnjarl.h"

long last(const struct context *context, const u8 *block)
{
    return block[context->block_size - 1];
}
