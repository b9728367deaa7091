/* Filters of which fewer slots are made than clang makes of them. */
typedef unsigned char u8;
typedef unsigned short u16;
typedef unsigned int u32;
typedef unsigned long long u64;

struct context { u64 lba; u32 index, blocks, block_size, argument; };

/* Three times the low 16 bits of a number, and a number more. */
__attribute__((noinline)) static u64 scaled(u64 value, u64 more)
{
    return (value & 0xffff) * 3 + more;
}

/* Three times two fields of two bytes, to one of which 5 is added. */
long fields(const struct context *context, const u8 *block, u8 *scratch)
{
    *(u32 *)scratch = scaled(*(const u16 *)block, 0);
    *(u32 *)(scratch + 4) = scaled(*(const u16 *)(block + 2), 5);
    return 0;
}

static const u16 weights[8] = { 3, 1, 4, 1, 5, 9, 2, 6 };

/* The weight of a byte. */
__attribute__((noinline)) static u32 weight(u8 byte)
{
    return weights[byte & 7];
}

/* Adds the weights of three bytes. */
long three(const struct context *context, const u8 *block, u8 *scratch)
{
    *(u32 *)scratch = weight(block[0]) + weight(block[1]) + weight(block[2]);
    return 0;
}

/* Adds the weights of sixteen bytes, each in a round. */
long sixteen(const struct context *context, const u8 *block, u8 *scratch)
{
    u32 found = 0;

#pragma clang loop unroll(disable)
    for (u32 i = 0; i < 16; i++)
        found += weights[block[i] & 7];
    *(u32 *)scratch = found;
    return 0;
}

/* Follows 64 numbers, each of which says where the next one is; clang unrolls the loop. */
__attribute__((noinline)) static u32 followed(const u8 *block, u32 at)
{
#pragma clang loop unroll(full)
    for (u32 i = 0; i < 64; i++)
        at = *(const u16 *)(block + at) + i;
    return at;
}

/* Follows 832 of them: with a guard in front of each they take more slots than a program has. */
long follow(const struct context *context, const u8 *block, u8 *scratch)
{
    u32 at = followed(block, 0);

    at = followed(block, at);
    at = followed(block, at);
    at = followed(block, at);
    at = followed(block, at);
    at = followed(block, at);
    at = followed(block, at);
    at = followed(block, at);
    at = followed(block, at);
    at = followed(block, at);
    at = followed(block, at);
    at = followed(block, at);
    *(u32 *)scratch = followed(block, at);
    return 0;
}
