/* A filter by fields: emits the orders of a region whose price and quantity are in range and that aren't cancelled.

   Record:   64 bytes, 8 in a block; struct order
   Block:    512 bytes
   Emit:     512, 8 records of 62 bytes: orders are emitted without their last 2 bytes, which hold nothing
   Argument: the region */
#include "pifnjarl.h"

enum { CANCELLED = 2 };

struct order {
    u64 key;
    u32 region;
    u16 quantity;
    u8 status;
    u8 flags;
    u64 price;
    u8 name[38];
    u8 unused[2];
};

long orders(const struct context *context, const u8 *block)
{
    const struct order *order = (const struct order *)block;

#pragma unroll
    for (int i = 0; i < 8; i++, order++)
        if (order->region == context->argument && order->price >= 1000 && order->price < 50000 && order->quantity > 3
            && order->status != CANCELLED)
            emit(order, 62);
    return 0;
}
