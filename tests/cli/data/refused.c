/* Functions of which no program is made, and ones of which one is made that `verify` refuses, each for another reason. */
typedef unsigned char u8;
typedef unsigned int u32;
typedef unsigned long long u64;

void *memchr(const void *in, int byte, unsigned long length);
int memcmp(const void *one, const void *other, unsigned long length);
static u64 count;

long counts(const void *context, const u8 *block)
{
    count += block[0];
    return count > 9;
}

long finds(const void *context, const u8 *block)
{
    return memchr(block, 7, 64) != 0;
}

long compares(const void *context, const u8 *block)
{
    return memcmp(block, block + 256, block[0]);
}

long adds(const void *context, const u8 *block, u64 *scratch)
{
    __sync_fetch_and_add(scratch, block[0]);
    return 0;
}

static __attribute__((noinline)) long turns(const u8 *block, long i)
{
    return block[i & 63] ? turns(block, i * 5 + 1) * 3 + i : i;
}

long circles(const void *context, const u8 *block)
{
    return turns(block, 0);
}

static __attribute__((noinline)) u8 inner(const u8 *block)
{
    volatile u8 own[300];

    own[block[0]] = 1;
    return own[block[1]];
}

long frames(const void *context, const u8 *block)
{
    volatile u8 own[300];

    own[block[2]] = inner(block);
    return own[block[3]];
}

#define FOUR(n) n##ull << 40 | 1, n##ull << 40 | 2, n##ull << 40 | 3, n##ull << 40 | 5

long tables(const void *context, const u8 *block)
{
    static const u64 words[] = {
        FOUR(1), FOUR(2), FOUR(3), FOUR(4), FOUR(5), FOUR(6), FOUR(7), FOUR(8), FOUR(9), FOUR(10), FOUR(11), FOUR(12), FOUR(13), FOUR(14),
        FOUR(15), FOUR(16), FOUR(17), FOUR(18), FOUR(19), FOUR(20),
    };

    return words[block[0] & 63] > block[1];
}

long helps(const void *context, const u8 *block)
{
    long (*helper)(const void *) = (void *)2;

    return helper(block);
}
