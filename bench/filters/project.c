/* Emits key, price, day and store of each of the block's first 8 records where the day is late enough. */
#include "pifnjarl.h"

struct row {
    u64 key;
    u32 day;
    u16 kind;
    u16 store;
    u64 price;
    u8 rest[40];
};

long project(const struct context *context, const u8 *block)
{
    const struct row *row = (const struct row *)block;

#pragma unroll
    for (int i = 0; i < 8; i++, row++) {
        struct { u64 key, price; u32 day, store; } out;
        if (row->day < context->argument)
            continue;
        out.key = row->key;
        out.price = row->price;
        out.day = row->day;
        out.store = row->store;
        emit(&out, sizeof out);
    }
    return 0;
}
