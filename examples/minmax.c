/* Minimum and maximum: keeps the least and the greatest of signed temperatures, their sum and their number in scratch,
   and emits them with the run's last block. Where there is none the least is above the greatest.

   Record:   64 bytes, 8 in a block: a temperature (32 bits, signed) at byte 8; the least of all stands for none
   Block:    512 bytes
   Emit:     26, a record of 24 bytes: struct range
   Argument: none */
#include "pifnjarl.h"

#define NONE (-0x7fffffff - 1)

struct range {
    int least, greatest;
    long long sum;
    u64 number;
};

long minmax(const struct context *context, const u8 *block, u8 *scratch)
{
    struct range *range = (struct range *)scratch;

    if (context->index == 0) {
        range->least = 0x7fffffff;
        range->greatest = NONE;
    }
#pragma unroll
    for (int i = 0; i < 8; i++) {
        int temperature = *(const int *)(block + 64 * i + 8);

        if (temperature == NONE)
            continue;
        if (temperature < range->least)
            range->least = temperature;
        if (temperature > range->greatest)
            range->greatest = temperature;
        range->sum += temperature;
        range->number++;
    }
    if (context->index + 1 == context->count)
        emit_field(*range);
    return 0;
}
