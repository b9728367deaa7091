/* A filter that keeps on the stack the address that a called function gives. */
typedef unsigned char u8;
typedef unsigned int u32;
typedef unsigned long long u64;

struct context { u64 lba; u32 index, blocks, block_size, argument; };

/* The second half of a block of 512 bytes. */
__attribute__((noinline)) static const u8 *half(const u8 *block)
{
    return block + 256;
}

/* Leaves in scratch two bytes of it. */
long halves(const struct context *context, const u8 *block, u8 *scratch)
{
    const u8 *volatile kept = half(block);

    scratch[0] = kept[0];
    scratch[1] = kept[255];
    return 0;
}
