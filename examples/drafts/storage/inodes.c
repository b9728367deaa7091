/* A table of inodes of 128 bytes: mode (u16), owner (u16), size (u64 at byte 8), time of change (u32 at byte 16). Emits the number
   of each regular file of the argument's owner that is larger than a MiB.

   Block:    4096 bytes, 32 inodes
   Answer:   for each such inode its number in the table, 4 bytes, from 32 times the block's index on */
#include "../../pifnjarl.h"

#define S_IFMT 0170000
#define S_IFREG 0100000

struct inode {
    u16 mode;
    u16 owner;
    u32 links;
    u64 size;
    u32 changed;
    u8 rest[108];
};

static int is_large_file(const struct inode *inode, u32 owner)
{
    if ((inode->mode & S_IFMT) != S_IFREG)
        return 0;
    return inode->owner == owner && inode->size > 1 << 20;
}

long inodes(const struct context *context, const u8 *block)
{
    for (int i = 0; i < 32; i++) {
        const struct inode *inode = (const struct inode *)(block + i * sizeof(struct inode));

        if (inode->links != 0 && is_large_file(inode, context->argument)) {
            u32 number = context->index * 32 + i;
            emit(&number, sizeof number);
        }
    }
    return 0;
}
