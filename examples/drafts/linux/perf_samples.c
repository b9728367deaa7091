/* Samples of a profiler, one behind the other: a header with type (u32), misc (u16) and size (u16), then the sample. Emits those of
   type 9 of the process that is the argument, and counts what was lost.

   Block:    4096 bytes; a size below 8 ends the samples
   Scratch:  how many were lost (u64)
   Answer:   each such sample, at most 256 bytes of it; in scratch the sum of the lost that samples of type 2 tell */
#include "types.h"

struct perf_event_header {
    __u32 type;
    __u16 misc;
    __u16 size;
};

struct perf_sample {
    struct perf_event_header header;
    __u64 ip;
    __u32 pid, tid;
};

struct perf_lost {
    struct perf_event_header header;
    __u64 id, lost;
};

SEC("scan")
long perf_samples(const struct context *ctx, void *data, __u64 *lost)
{
    void *data_end = data + ctx->block_size;

    for (int i = 0; i < 64; i++) {
        struct perf_event_header *h = data;

        if (data + sizeof(*h) > data_end || h->size < sizeof(*h) || data + h->size > data_end)
            break;
        if (h->type == 9 && h->size >= sizeof(struct perf_sample) && ((struct perf_sample *)h)->pid == ctx->argument)
            emit(data, h->size > 256 ? 256 : h->size);
        if (h->type == 2 && h->size >= sizeof(struct perf_lost))
            *lost += ((struct perf_lost *)h)->lost;
        data += h->size;
    }
    return 0;
}
