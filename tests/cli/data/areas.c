/* Filters with addresses in data and on the stack, or of one area or another, and with what `link` refuses of these. */
typedef unsigned char u8;
typedef unsigned int u32;
typedef unsigned long long u64;

struct context { u64 lba; u32 index, blocks, block_size, argument; };

static long (*const emit)(const void *address, u64 length) = (void *)1;

static const char *const names[] = { "red", "green", "blue", 0 };

/* How many names there are, up to the null. */
__attribute__((noinline)) static u64 count(const char *const *list)
{
    u64 found = 0;

    while (list[found])
        found++;
    return found;
}

/* Emits the name that the first byte chooses, and how many there are. */
long name(const struct context *context, const u8 *block, u8 *scratch)
{
    emit(names[block[0] % 3], 3);
    scratch[0] = count(names);
    return 0;
}

/* Counts the low three bits of bytes in an array on the stack, by an OR of its address. */
long bits(const struct context *context, const u8 *block, u8 *scratch)
{
    u8 seen[8] = { 0 };

    for (u32 i = 0; i < 6; i++)
        seen[block[i] & 7]++;
    emit(seen, 8);
    return 0;
}

/* Emits from the block or from scratch. */
long either(const struct context *context, const u8 *block, u8 *scratch)
{
    const u8 *from = block[0] ? scratch + block[0] : block + 1;

    *(u32 *)(scratch + 8) = 0x64636261;
    emit(from, 2);
    return 0;
}

/* Emits what never fits: with two bytes for its length it takes 514. */
long whole(const struct context *context, const u8 *block, u8 *scratch)
{
    emit(block, 512);
    return 0;
}

/* Loads behind the block. */
long behind(const struct context *context, const u8 *block, u8 *scratch)
{
    return block[512];
}

__attribute__((noinline)) static long twice(long value)
{
    return 2 * value;
}

__attribute__((noinline)) static long thrice(long value)
{
    return 3 * value;
}

static long (*const functions[])(long) = { twice, thrice };

/* Calls a function by a table. */
long called(const struct context *context, const u8 *block, u8 *scratch)
{
    return functions[block[0] & 1](block[1]);
}
