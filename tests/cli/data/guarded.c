/* Filters whose bounds hold only by what `link` puts in front of accesses and emits. */
typedef unsigned char u8;
typedef unsigned short u16;
typedef unsigned int u32;
typedef unsigned long long u64;

struct context { u64 lba; u32 index, blocks, block_size, argument; };

static long (*const emit)(const void *address, u64 length) = (void *)1;

/* Reads the byte to which the first two lead. */
long field(const struct context *context, const u8 *block)
{
    return block[*(const u16 *)block] & 15;
}

/* Emits as many bytes as the first two say. */
long record(const struct context *context, const u8 *block)
{
    emit(block + 2, *(const u16 *)block);
    return 0;
}

/* Emits the last byte of a block. */
long last(const struct context *context, const u8 *block)
{
    emit(block + context->block_size - 1, 1);
    return 0;
}

/* Counts entries of text. Each begins with how many bytes it has, and a kind; the last has no bytes. */
long entries(const struct context *context, const u8 *block)
{
    u64 at = 0, count = 0;

    while (at < 512 && block[at] > 0) {
        if (block[(at + 1) & 511] == 't')
            count++;
        at += block[at];
    }
    return count;
}

/* Emits a text that another function chooses. */
__attribute__((noinline)) const char *word(u64 number)
{
    return number & 1 ? "odd!" : "even";
}

long texts(const struct context *context, const u8 *block)
{
    emit(word(block[0]), 4);
    return 0;
}
