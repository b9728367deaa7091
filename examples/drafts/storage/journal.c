/* Journal entries behind one another, each with a type (u8), a length (u8) and so many bytes: type 0 pads, 1 is data, 2 commits. Emits
   the data in front of each commit, and not what no commit follows.

   Block:    512 bytes
   Answer:   for each commit the data entries since the one before, each with its two bytes */
#include "../../pifnjarl.h"

enum { PAD, DATA, COMMIT };

long journal(const struct context *context, const u8 *block)
{
    const u8 *end = block + 512;
    const u8 *waiting = block;

    for (const u8 *at = block; at + 2 <= end && at + 2 + at[1] <= end; at += 2 + at[1]) {
        if (at[0] != COMMIT)
            continue;
        for (; waiting < at; waiting += 2 + waiting[1])
            if (waiting[0] == DATA)
                emit(waiting, 2 + waiting[1]);
        waiting = at + 2 + at[1];
    }
    return 0;
}
