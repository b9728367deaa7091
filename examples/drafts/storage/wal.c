/* Records of a write-ahead log, of 64 bytes: a magic number, a checksum of the 56 bytes behind both, a sequence number and the
   payload. Emits the records from the argument's sequence number on, up to the first whose checksum is wrong.

   Block:    512 bytes, 8 records
   Answer:   of each good record from that number on its sequence number and payload, 56 bytes */
#include "../../pifnjarl.h"

#define MAGIC 0x57414c31

struct record {
    u32 magic;
    u32 checksum;
    u64 sequence;
    u8 payload[48];
};

static u32 checksum(const u8 *bytes, int length)
{
    u32 a = 1, b = 0;

    for (int i = 0; i < length; i++) {
        a += bytes[i];
        b += a;
    }
    return b << 16 | (a & 0xffff);
}

long wal(const struct context *context, const u8 *block)
{
    const struct record *record = (const struct record *)block;

    for (int i = 0; i < 8; i++, record++) {
        if (record->magic != MAGIC || record->checksum != checksum((const u8 *)&record->sequence, 56))
            return 0;
        if (record->sequence >= context->argument)
            emit(&record->sequence, 56);
    }
    return 0;
}
