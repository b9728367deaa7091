/* Entries behind one another, each with a length and so many bytes, up to one of length 0. Emits the first four bytes of those that begin
   with "key", and counts the others by the remainder of their first byte by 5. Blocks of 512 bytes. */
typedef unsigned char u8;
typedef unsigned int u32;
typedef unsigned long long u64;

static long (*const emit)(const void *address, u64 length) = (void *)1;

long entries(const void *context, const u8 *block, u64 *counts)
{
    u32 at = 0;

    while (at <= 500 && block[at] != 0) {
        const u8 *entry = block + at + 1;

        if (__builtin_memcmp(entry, "key", 3) == 0)
            emit(entry, 4);
        else
            counts[entry[0] % 5]++;
        at += 1 + block[at];
    }
    return 0;
}
