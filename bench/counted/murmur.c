/* The 32-bit Murmur3 hash of the block's first 64 bytes, emitted. */
#include "pifnjarl.h"

static u32 turned(u32 x, int by) { return x << by | x >> (32 - by); }

long murmur(const struct context *context, const u8 *block)
{
    const u32 *word = (const u32 *)block;
    u32 hash = 42;

#pragma unroll
    for (int i = 0; i < 16; i++) {
        u32 k = turned(word[i] * 0xcc9e2d51, 15) * 0x1b873593;

        hash = turned(hash ^ k, 13) * 5 + 0xe6546b64;
    }
    hash ^= 64;
    hash = (hash ^ hash >> 16) * 0x85ebca6b;
    hash = (hash ^ hash >> 13) * 0xc2b2ae35;
    hash ^= hash >> 16;
    emit_field(hash);
    return 0;
}
