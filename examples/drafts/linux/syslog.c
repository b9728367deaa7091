/* Lines of 128 bytes, each ended by a 0: emits those in which "error" stands.

   Block:    512 bytes, 4 lines
   Answer:   each such line up to its 0, at most 120 bytes */
#include "types.h"

#define LINE 128

static __always_inline int contains(const char *line, const char *word, int len)
{
    for (int i = 0; i < LINE - len; i++) {
        int j;

        for (j = 0; j < len; j++)
            if (line[i + j] != word[j])
                break;
        if (j == len)
            return 1;
        if (line[i] == 0)
            return 0;
    }
    return 0;
}

static __always_inline int length(const char *line)
{
    int n = 0;

    while (n < 120 && line[n])
        n++;
    return n;
}

SEC("scan")
long syslog(const struct context *ctx, const char *block)
{
    for (int i = 0; i < 4; i++) {
        const char *line = block + i * LINE;

        if (contains(line, "error", 5))
            emit(line, length(line));
    }
    return 0;
}
