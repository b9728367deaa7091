/* Deduplication: emits the keys that weren't met before, by a Bloom filter of 1024 bits in scratch: two for each key. Some
   keys that are new are taken for known, the more the fuller the filter is.

   Record:   64 bytes, 8 in a block: a key (u64) at byte 0
   Block:    512 bytes
   Emit:     80, 8 records of 8 bytes
   Argument: none */
#include "pifnjarl.h"

long bloom(const struct context *context, const u8 *block, u8 *scratch)
{
    u64 *bits = (u64 *)scratch;

#pragma unroll
    for (int i = 0; i < 8; i++) {
        u64 key = le64(block, 64 * i);
        u64 hash = key * 0x9e3779b97f4a7c15ull;
        u64 first = hash >> 54, second = hash >> 44 & 1023;
        u64 one = bits[first >> 6] >> (first & 63) & 1;
        u64 two = bits[second >> 6] >> (second & 63) & 1;

        bits[first >> 6] |= 1ull << (first & 63);
        bits[second >> 6] |= 1ull << (second & 63);
        if (!(one & two))
            emit(block + 64 * i, 8);
    }
    return 0;
}
