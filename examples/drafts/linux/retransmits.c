/* Segments of a connection, of 16 bytes: sequence (u32), length (u16), flags (u16), time (u64). Emits those that repeat bytes that an
   earlier one of the run had, by the signed distance of sequence numbers.

   Block:    512 bytes: 28 segments, and 64 bytes that hold nothing
   Scratch:  the next sequence number (u32), whether one was seen (u32), how many were repeated (u64)
   Answer:   the segments that begin before the next sequence number; in scratch these three */
#include "types.h"

struct segment {
    __u32 seq;
    __u16 len;
    __u16 flags;
    __u64 time;
};

struct state {
    __u32 next;
    __u32 seen;
    __u64 again;
};

SEC("scan")
long retransmits(const struct context *ctx, struct segment *s, struct state *state)
{
#pragma unroll
    for (int i = 0; i < 28; i++) {
        __s32 ahead = s[i].seq - state->next;

        if (state->seen && ahead < 0 && s[i].len) {
            state->again++;
            emit(&s[i], sizeof(s[i]));
            continue;
        }
        state->seen = 1;
        state->next = s[i].seq + s[i].len;
    }
    return 0;
}
