/* Writes what comes on standard input to a file, by asynchronous direct writes one after another, each of 128 KiB or what is left:
   guest_write FILE. For files of zonefs on Linux 6.1.192: there each synchronous one, which becomes a Zone Append, failed once the
   block was written, with "Corrupted write pointer" and the sector at which it should be and was. */
#define _GNU_SOURCE
#include <fcntl.h>
#include <linux/aio_abi.h>
#include <stdint.h>
#include <stdio.h>
#include <stdlib.h>
#include <sys/syscall.h>
#include <unistd.h>

#define MOST 131072

static unsigned char *bytes;

/* Reads up to MOST bytes of standard input. */
static size_t read_piece(void)
{
    size_t count = 0;
    ssize_t more = 1;
    while (count < MOST && more > 0) {
        more = read(0, bytes + count, MOST - count);
        if (more > 0)
            count += (size_t)more;
    }
    return count;
}

/* Writes them at a place of the file, and waits for that. */
static int write_piece(aio_context_t context, int file, size_t count, int64_t at)
{
    struct iocb write = {0};
    write.aio_lio_opcode = IOCB_CMD_PWRITE;
    write.aio_fildes = (uint32_t)file;
    write.aio_buf = (uintptr_t)bytes;
    write.aio_nbytes = count;
    write.aio_offset = at;
    struct iocb *writes[] = {&write};
    struct io_event event;
    return syscall(SYS_io_submit, context, 1, writes) == 1 && syscall(SYS_io_getevents, context, 1, 1, &event, NULL) == 1 &&
           event.res == (int64_t)count;
}

int main(int argc, char **argv)
{
    aio_context_t context = 0;
    int file = argc == 2 ? open(argv[1], O_WRONLY | O_DIRECT) : -1;
    if (file < 0 || posix_memalign((void **)&bytes, 4096, MOST) != 0 || syscall(SYS_io_setup, 1, &context) != 0) {
        perror("guest_write");
        return 1;
    }
    int64_t at = 0;
    for (size_t count = read_piece(); count > 0; count = read_piece()) {
        if (!write_piece(context, file, count, at)) {
            fprintf(stderr, "guest_write: the write at %lld failed\n", (long long)at);
            return 1;
        }
        at += (int64_t)count;
    }
    printf("%lld bytes written\n", (long long)at);
    return 0;
}
