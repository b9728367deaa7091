/* Fingerprints of chunks: a hash (u64) and a place (u64). Emits those whose hash is in a table in scratch, and adds the others to
   it, as long as there is room: a table of 64 hashes, 0 for none, where a hash goes into the first free place from its low six bits on.

   Block:    512 bytes: 16 fingerprints, of which the hash 0 ends those that are used, and 256 bytes that hold nothing
   Scratch:  64 hashes
   Answer:   each fingerprint whose hash stood before, in this block or an earlier one of the run */
#include "../../pifnjarl.h"

struct fingerprint {
    u64 hash;
    u64 place;
};

static int seen(u64 *table, u64 hash)
{
    for (int i = 0; i < 8; i++) {
        u64 *at = &table[(hash + i) % 64];

        if (*at == hash)
            return 1;
        if (*at == 0) {
            *at = hash;
            return 0;
        }
    }
    return 0;
}

long dedup(const struct context *context, const u8 *block, u8 *scratch)
{
    const struct fingerprint *f = (const struct fingerprint *)block;

    for (int i = 0; i < 16 && f[i].hash != 0; i++)
        if (seen((u64 *)scratch, f[i].hash))
            emit(&f[i], sizeof f[i]);
    return 0;
}
