/* Calls of a function that others see and of one that they don't, a table and a string. */
typedef unsigned char u8;
typedef unsigned int u32;
typedef unsigned long long u64;

static long (*const emit)(const void *address, u64 length) = (void *)1;
static const u32 primes[5] = { 7, 11, 13, 17, 19 };

static __attribute__((noinline)) u64 prime(u64 i)
{
    return primes[i & 3];
}

__attribute__((noinline)) u64 weight(const u8 *block, u64 i)
{
    return block[i & 63] * prime(i);
}

long filter(const void *context, const u8 *block)
{
    if (weight(block, 1) + weight(block, 2) == 55)
        emit("hello", 5);
    return 0;
}
