/* Refused: two bytes of the block give up to 65535, and nothing bounds the index. */
#include "pifnjarl.h"

long unbounded(const struct context *context, const u8 *block)
{
    return block[le16(block, 0)];
}
