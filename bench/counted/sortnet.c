/* Sorts 4 numbers of 32 bits by a network of compares, and emits the two in the middle. */
#include "pifnjarl.h"

#define SWAP(a, b) if (x##a > x##b) { u64 t = x##a; x##a = x##b; x##b = t; }

long sortnet(const struct context *context, const u8 *block, u8 *scratch)
{
    const u32 *word = (const u32 *)block;
    u64 x0 = word[0], x1 = word[5], x2 = word[10], x3 = word[15];

    SWAP(0, 1) SWAP(2, 3) SWAP(0, 2) SWAP(1, 3) SWAP(1, 2)
    ((u32 *)scratch)[0] = x1;
    ((u32 *)scratch)[1] = x2;
    emit(scratch, 8);
    return 0;
}
