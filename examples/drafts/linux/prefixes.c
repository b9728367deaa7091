/* Routes of IPv4: an address (u32, big-endian), a length (u8), 3 bytes, a next hop (u32) and 4 more. Emits the longest that covers the
   argument.

   Block:    512 bytes, 32 routes; a length over 32 is none
   Answer:   the route of the block that covers the address and has the greatest length, the first of these; or nothing */
#include "types.h"

struct route {
    __u32 addr;
    __u8 len;
    __u8 pad[3];
    __u32 via;
    __u32 more;
};

static __always_inline __u32 mask(__u8 len)
{
    return len ? ~0u << (32 - len) : 0;
}

SEC("scan")
long prefixes(const struct context *ctx, struct route *route)
{
    struct route *best = 0;

    for (int i = 0; i < 32; i++, route++) {
        if (route->len > 32)
            continue;
        if ((bpf_ntohl(route->addr) ^ ctx->argument) & mask(route->len))
            continue;
        if (!best || route->len > best->len)
            best = route;
    }
    if (best)
        emit(best, sizeof(*best));
    return 0;
}
