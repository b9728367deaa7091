/* Events of I/O with a start and an end in nanoseconds: a histogram of the time between, by powers of 2, and the count of the slow.

   Block:    512 bytes: 8 events of 32 bytes, start (u64), end (u64), sector (u64) and 8 more, and 256 bytes that hold nothing
   Scratch:  64 counts (u64)
   Answer:   in scratch at each power of 2 how many events took so long; events that took more than the argument are emitted */
#include "types.h"

struct event {
    __u64 start, end, sector, more;
};

static __always_inline __u32 log2_u32(__u32 v)
{
    __u32 r, shift;

    r = (v > 0xffff) << 4; v >>= r;
    shift = (v > 0xff) << 3; v >>= shift; r |= shift;
    shift = (v > 0xf) << 2; v >>= shift; r |= shift;
    shift = (v > 0x3) << 1; v >>= shift; r |= shift;
    r |= v >> 1;
    return r;
}

static __always_inline __u32 log2_u64(__u64 v)
{
    __u32 hi = v >> 32;

    return hi ? log2_u32(hi) + 32 : log2_u32(v);
}

SEC("scan")
long latency(const struct context *ctx, struct event *event, __u64 *hist)
{
#pragma unroll
    for (int i = 0; i < 8; i++, event++) {
        __u64 delta = event->end - event->start;

        hist[log2_u64(delta)]++;
        if (delta > ctx->argument)
            emit(event, sizeof *event);
    }
    return 0;
}
