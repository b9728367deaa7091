/* Fields with a tag (u8), a length (u8) and a value: emits the value of the first whose tag is the argument.

   Block:    512 bytes
   Answer:   that value, at most 255 bytes; nothing where it is cut by the block's end, is empty or is not there */
#include "types.h"

#define MAX_FIELDS 32

struct tlv {
    __u8 tag;
    __u8 len;
    __u8 value[];
};

SEC("scan")
long tlv(const struct context *ctx, void *data)
{
    void *data_end = data + ctx->block_size;
    struct tlv *field = data;

    for (int i = 0; i < MAX_FIELDS; i++) {
        if ((void *)(field + 1) > data_end)
            return 0;
        if (field->value + field->len > (__u8 *)data_end)
            return 0;
        if (field->tag == ctx->argument) {
            if (field->len > 0)
                emit(field->value, field->len);
            return 0;
        }
        field = (void *)(field->value + field->len);
    }
    return 0;
}
