/* The 64-bit FNV-1a hash of the block's first 64 bytes, emitted. */
#include "pifnjarl.h"

long fnv(const struct context *context, const u8 *block)
{
    u64 hash = 0xcbf29ce484222325;

#pragma unroll
    for (int i = 0; i < 64; i++)
        hash = (hash ^ block[i]) * 0x100000001b3;
    emit(&hash, 8);
    return 0;
}
