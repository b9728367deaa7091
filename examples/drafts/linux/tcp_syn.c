/* Frames of Ethernet in slots of 128 bytes: emits those that are TCP over IPv4 with SYN and without ACK to the argument's port.

   Block:    512 bytes, 4 slots
   Answer:   the first 64 bytes of each such frame */
#include "types.h"

#define ETH_P_IP 0x0800
#define IPPROTO_TCP 6

struct ethhdr { __u8 dest[6], source[6]; __u16 proto; } __attribute__((packed));
struct iphdr { __u8 ihl : 4, version : 4, tos; __u16 len, id, off; __u8 ttl, protocol; __u16 check; __u32 saddr, daddr; } __attribute__((packed));
struct tcphdr { __u16 source, dest; __u32 seq, ack; __u8 doff, flags; } __attribute__((packed));

static int handle(void *data, void *data_end, __u32 port)
{
    struct ethhdr *eth = data;
    struct iphdr *ip;
    struct tcphdr *tcp;

    if ((void *)(eth + 1) > data_end || eth->proto != bpf_ntohs(ETH_P_IP))
        return 0;
    ip = (void *)(eth + 1);
    if ((void *)(ip + 1) > data_end || ip->protocol != IPPROTO_TCP || ip->ihl < 5)
        return 0;
    tcp = (void *)ip + ip->ihl * 4;
    if ((void *)(tcp + 1) > data_end)
        return 0;
    return bpf_ntohs(tcp->dest) == port && (tcp->flags & 0x12) == 0x02;
}

SEC("scan")
long tcp_syn(const struct context *ctx, void *block)
{
    for (int i = 0; i < 4; i++) {
        void *data = block + 128 * i;

        if (handle(data, data + 128, ctx->argument))
            emit(data, 64);
    }
    return 0;
}
