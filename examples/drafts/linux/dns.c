/* Queries in slots of 256 bytes, with the name in labels behind a header of 12 bytes: emits the names in the domain "example".

   Block:    512 bytes, 2 slots
   Answer:   of each query whose last label is "example" the labels of its name, whole, without the last 0 */
#include "types.h"

#define MAX_LABELS 8

static const char domain[] = "example";

static int last_label_is(const __u8 *label, const char *name, int len)
{
    return label[0] == len && !__builtin_memcmp(label + 1, name, 7);
}

SEC("scan")
long dns(const struct context *ctx, __u8 *block)
{
    for (int slot = 0; slot < 2; slot++) {
        __u8 *start = block + 256 * slot + 12;
        __u8 *cur = start, *last = start;
        __u8 *end = block + 256 * (slot + 1);

        for (int i = 0; i < MAX_LABELS; i++) {
            if (cur >= end || *cur == 0 || *cur > 63)
                break;
            last = cur;
            cur += *cur + 1;
        }
        if (last + 8 <= end && cur < end && *cur == 0 && last_label_is(last, domain, 7))
            emit(start, cur - start);
    }
    return 0;
}
