/* Captured packets: emits the first 54 bytes of a packet that is TCP over IPv4, without options, to port 443 or to
   another, and not from 127.0.0.0/8.

   Record:   an Ethernet frame, one in a block
   Block:    512 bytes
   Emit:     56, a record of 54 bytes: the headers
   Argument: the other port */
#include "pifnjarl.h"

static inline u16 big16(const u8 *at) { return at[0] << 8 | at[1]; }

long packets(const struct context *context, const u8 *block)
{
    u16 port;
    u32 source;

    if (big16(block + 12) != 0x0800 || block[23] != 6 || (block[14] & 0x0f) != 5)
        return 0;
    source = (u32)block[26] << 24 | block[27] << 16 | block[28] << 8 | block[29];
    if ((source & 0xff000000) == 0x7f000000)
        return 0;
    port = big16(block + 36);
    if (port == 443 || port == (u16)context->argument)
        emit(block, 54);
    return 0;
}
