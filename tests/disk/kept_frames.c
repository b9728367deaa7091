/* Serves a device that is kept in a file: kept_frames IMAGE. Standard input has batches of frames (docs/device.md), each after its
   length in 4 bytes, the least first; the frames of the replies go to standard output, batch by batch. A batch of no frames folds the
   journal. It ends with status 0 at the end of the input, and with 1 where anything fails. */
#include "pifnjarl_durable.h"

#include <errno.h>
#include <stdbool.h>
#include <stdint.h>
#include <stdio.h>
#include <string.h>
#include <unistd.h>

enum { MOST_BYTES = 1 << 20 };

static unsigned char batch[MOST_BYTES], replies[MOST_BYTES];

/* Reads so many bytes; fewer where the input ends. */
static size_t read_all(unsigned char *bytes, size_t count)
{
    size_t done = 0;
    while (done < count) {
        ssize_t more = read(STDIN_FILENO, bytes + done, count - done);
        if (more <= 0)
            break;
        done += (size_t)more;
    }
    return done;
}

static bool write_all(const unsigned char *bytes, size_t count)
{
    for (size_t done = 0; done < count;) {
        ssize_t more = write(STDOUT_FILENO, bytes + done, count - done);
        if (more < 0)
            return false;
        done += (size_t)more;
    }
    return true;
}

/* Serves a batch, and writes the replies. */
static bool serve(struct pifnjarl_durable *device, size_t count)
{
    if (count == 0)
        return pifnjarl_durable_fold(device) == PIFNJARL_DURABLE_DONE;
    if (pifnjarl_durable_serve(device, batch, count) != PIFNJARL_DURABLE_DONE)
        return false;
    size_t from = 0, size;
    while ((size = pifnjarl_durable_replies(device, from, replies, sizeof replies)) > 0) {
        if (!write_all(replies, size))
            return false;
        from += size;
    }
    return true;
}

/* Serves the batches of the input up to its end. */
static bool serve_all(struct pifnjarl_durable *device)
{
    unsigned char length[4];
    size_t came;
    while ((came = read_all(length, sizeof length)) == sizeof length) {
        size_t count = length[0] | (size_t)length[1] << 8 | (size_t)length[2] << 16 | (size_t)length[3] << 24;
        if (count > sizeof batch || read_all(batch, count) != count || !serve(device, count))
            return false;
    }
    return came == 0;
}

int main(int count, char **words)
{
    struct pifnjarl_durable *device;
    if (count != 2)
        return 2;
    enum pifnjarl_durable_result opened = pifnjarl_durable_open(words[1], &device);
    if (opened != PIFNJARL_DURABLE_DONE) {
        fprintf(stderr, "kept_frames: cannot open %s: result %d, %s\n", words[1], opened, strerror(errno));
        return 1;
    }
    bool done = serve_all(device);
    pifnjarl_durable_close(device);
    return done ? 0 : 1;
}
