/* Guards, and where they write. */
typedef unsigned char u8;
typedef unsigned int u32;
typedef unsigned long long u64;

struct context { u64 lba; u32 index, blocks, block_size, argument; };

static long (*const emit)(const void *address, u64 length) = (void *)1;

/* Counts by a byte of the block, which scratch has no room for. */
long counts(const struct context *context, const u8 *block, u64 *scratch)
{
    scratch[block[0]]++;
    return 0;
}

/* Counts by six bits of one, and a byte at a place that is read. */
long few(const struct context *context, const u8 *block, u64 *scratch)
{
    scratch[block[0] & 63]++;
    return block[block[1] | block[2] << 8];
}

/* A record whose place and length are compared by their sum. */
long record(const struct context *context, const u8 *block)
{
    u32 at = block[0] | block[1] << 8, length = block[2] + 1;

    if (at + length <= 512)
        emit(block + at, length);
    return 0;
}
