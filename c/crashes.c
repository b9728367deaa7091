/* A device in a file, and a program that dies at each of its calls for the file in turn: crashes IMAGE. IMAGE is replaced. Prints what
   fails, and how many checks there were. */
#define _GNU_SOURCE
#include "pifnjarl_durable.h"

#include <errno.h>
#include <stdint.h>
#include <stdio.h>
#include <stdlib.h>
#include <string.h>
#include <sys/wait.h>
#include <unistd.h>

enum { BLOCK_BYTES = 512, BATCH = 3 };
enum { FRAME_OF_ENTRY = PIFNJARL_FRAME_BYTES + PIFNJARL_ENTRY_BYTES, REPLY = PIFNJARL_FRAME_BYTES + PIFNJARL_COMPLETION_BYTES };

static unsigned passed, failed;
static long calls_left = -1, memory_left = -1;
static int sync_fails;

static void check(int holds, const char *what)
{
    if (holds) {
        passed++;
    } else {
        failed++;
        printf("failed: %s\n", what);
    }
}

#define CHECK(holds) check(holds, #holds)

/* The linker puts these in the places of the calls that change files: the program dies in front of one, and of a write behind a part. */
static void count_call(void)
{
    if (calls_left == 0)
        _exit(9);
    if (calls_left > 0)
        calls_left--;
}

ssize_t __real_pwrite(int file, const void *bytes, size_t count, off_t at);
ssize_t __wrap_pwrite(int file, const void *bytes, size_t count, off_t at);
ssize_t __wrap_pwrite(int file, const void *bytes, size_t count, off_t at)
{
    if (calls_left == 0)
        __real_pwrite(file, bytes, count / 2, at);
    count_call();
    return __real_pwrite(file, bytes, count, at);
}

int __real_fsync(int file);
int __wrap_fsync(int file);
int __wrap_fsync(int file)
{
    count_call();
    if (sync_fails) {
        errno = EIO;
        return -1;
    }
    return __real_fsync(file);
}

/* Nor is there memory, where none is left. */
void *__real_malloc(size_t size);
void *__wrap_malloc(size_t size);
void *__wrap_malloc(size_t size)
{
    if (memory_left == 0)
        errno = ENOMEM;
    return memory_left == 0 ? NULL : __real_malloc(size);
}

void *__real_realloc(void *old, size_t size);
void *__wrap_realloc(void *old, size_t size);
void *__wrap_realloc(void *old, size_t size)
{
    if (memory_left == 0)
        errno = ENOMEM;
    return memory_left == 0 ? NULL : __real_realloc(old, size);
}

int __real_rename(const char *from, const char *to);
int __wrap_rename(const char *from, const char *to);
int __wrap_rename(const char *from, const char *to)
{
    count_call();
    return __real_rename(from, to);
}

int __real_ftruncate(int file, off_t length);
int __wrap_ftruncate(int file, off_t length);
int __wrap_ftruncate(int file, off_t length)
{
    count_call();
    return __real_ftruncate(file, length);
}

static unsigned char entry[PIFNJARL_ENTRY_BYTES];

/* The frame of an entry without data. */
static size_t frame_of(unsigned char *frame, const void *made)
{
    return pifnjarl_frame_submit(frame, 0, made, NULL, 0);
}

/* That of an append of a block to zone 0. */
static size_t frame_of_append(unsigned char *frame, int data)
{
    unsigned char block[BLOCK_BYTES];
    memset(block, data, sizeof block);
    return pifnjarl_frame_submit(frame, 0, pifnjarl_append(entry, 0, 0, 1), block, sizeof block);
}

/* Appends blocks to zone 0 in one batch, and says whether all are told as appended. */
static int append(struct pifnjarl_durable *device, int blocks, int data)
{
    unsigned char frames[BATCH * (FRAME_OF_ENTRY + BLOCK_BYTES)] = {0};
    unsigned char replies[BATCH * REPLY];
    struct pifnjarl_answered answered;
    size_t count = 0, read = 0;
    for (int block = 0; block < blocks; block++)
        count += frame_of_append(frames + count, data);
    if (pifnjarl_durable_serve(device, frames, count) != PIFNJARL_DURABLE_DONE)
        return 0;
    size_t size = pifnjarl_durable_replies(device, 0, replies, sizeof replies);
    int good = size == (size_t)blocks * REPLY;
    for (int block = 0; good && block < blocks; block++) {
        read += pifnjarl_frame_read(replies + read, size - read, &answered);
        good = answered.kind == PIFNJARL_ANSWER_COMPLETION && answered.completion.status == 0;
    }
    return good;
}

/* How many blocks of zone 0 are written, from the first on, each of which is full of one byte; -1 where one isn't. Behind them zeros are
   read. */
static int blocks_of(struct pifnjarl_durable *device)
{
    for (int block = 0;; block++) {
        unsigned char frame[FRAME_OF_ENTRY], reply[REPLY + BLOCK_BYTES];
        frame_of(frame, pifnjarl_read(entry, 0, (uint64_t)block, 1));
        if (pifnjarl_durable_serve(device, frame, sizeof frame) != PIFNJARL_DURABLE_DONE)
            return -1;
        if (pifnjarl_durable_replies(device, 0, reply, sizeof reply) != sizeof reply)
            return block;
        const unsigned char *data = reply + REPLY;
        if (memcmp(data, data + 1, BLOCK_BYTES - 1) != 0)
            return -1;
        if (data[0] == 0)
            return block;
    }
}

static struct pifnjarl_durable *open_again(const char *path)
{
    struct pifnjarl_durable *device;
    CHECK(pifnjarl_durable_open(path, &device) == PIFNJARL_DURABLE_DONE);
    if (device == NULL)
        exit(1);
    return device;
}

/* Appends a batch, and another, and tells each. */
static int append_batches(struct pifnjarl_durable *device, int told)
{
    for (int batch = 0; batch < 2; batch++)
        if (!append(device, BATCH, 'a' + batch) || write(told, "", 1) != 1)
            return 0;
    return 1;
}

static int fold(struct pifnjarl_durable *device, int told)
{
    return pifnjarl_durable_fold(device) == PIFNJARL_DURABLE_DONE && write(told, "", 1) == 1;
}

/* A child opens the device and does its work, and dies at its call of this number, if it has as many. Gives how often it told that
   something is done; *ended says whether it didn't die. */
static int child(const char *path, long calls, int (*work)(struct pifnjarl_durable *, int), int *ended)
{
    int told[2], status;
    if (pipe(told) != 0)
        exit(1);
    pid_t pid = fork();
    if (pid == 0) {
        struct pifnjarl_durable *device;
        calls_left = calls;
        if (pifnjarl_durable_open(path, &device) != PIFNJARL_DURABLE_DONE)
            _exit(1);
        _exit(work(device, told[1]) ? 0 : 1);
    }
    close(told[1]);
    waitpid(pid, &status, 0);
    char done[2];
    ssize_t count = read(told[0], done, sizeof done);
    close(told[0]);
    CHECK(WIFEXITED(status) && (WEXITSTATUS(status) == 9 || WEXITSTATUS(status) == 0));
    *ended = WIFEXITED(status) && WEXITSTATUS(status) == 0;
    return (int)count;
}

static void write_image(const char *path, const unsigned char *image, size_t count)
{
    FILE *file = fopen(path, "w");
    if (file == NULL || fwrite(image, 1, count, file) != count || fclose(file) != 0)
        exit(1);
}

/* What was told as appended is there, a batch is there whole or not at all, and nothing else is: of an image that is opened for the first
   time, and of a journal that has a batch. */
static void crashes(const char *path, const unsigned char *image, size_t count, int had)
{
    int ended = 0;
    for (long calls = 0; !ended && calls < 100; calls++) {
        write_image(path, image, count);
        if (had > 0) {
            struct pifnjarl_durable *device = open_again(path);
            CHECK(append(device, had, 'A'));
            pifnjarl_durable_close(device);
        }
        int told = child(path, calls, append_batches, &ended);
        struct pifnjarl_durable *device = open_again(path);
        int has = blocks_of(device);
        CHECK(has >= had + told * BATCH && has <= had + (told + 1) * BATCH && has <= had + 2 * BATCH && (has - had) % BATCH == 0);
        pifnjarl_durable_close(device);
    }
    CHECK(ended);
}

/* Adds the first byte of a block to a sum in scratch. */
static const unsigned char program[] = {
    0x71, 0x24, 0, 0, 0, 0, 0, 0, /* ldxb r4, [r2+0] */
    0x79, 0x35, 0, 0, 0, 0, 0, 0, /* ldxdw r5, [r3+0] */
    0x0f, 0x45, 0, 0, 0, 0, 0, 0, /* add r5, r4 */
    0x7b, 0x53, 0, 0, 0, 0, 0, 0, /* stxdw [r3+0], r5 */
    0xb7, 0x00, 0, 0, 0, 0, 0, 0, /* mov r0, 0 */
    0x95, 0x00, 0, 0, 0, 0, 0, 0, /* exit */
};

/* Leaves a device with a program, whose result is that of a run over one block, and with a run over two that has a turn left. The zone is
   the one behind that of the blocks. */
static void use(struct pifnjarl_durable *device)
{
    unsigned char frames[1024], replies[1024];
    uint64_t zone = pifnjarl_durable_geometry(device).zone_blocks;
    size_t count = frame_of(frames, pifnjarl_zone_send(entry, 0, zone, PIFNJARL_OPEN_ZONE));
    count += pifnjarl_frame_submit(frames + count, 0, pifnjarl_load(entry, 0, 0, 0, sizeof program), program, sizeof program);
    for (uint32_t blocks = 1; blocks <= 2; blocks++) {
        count += frame_of(frames + count, pifnjarl_run(entry, 0, 0, 0, blocks, 0, zone));
        count += pifnjarl_frame_turn(frames + count, 0);
    }
    CHECK(append(device, 2, 'A'));
    CHECK(pifnjarl_durable_serve(device, frames, count) == PIFNJARL_DURABLE_DONE);
    CHECK(pifnjarl_durable_replies(device, 0, replies, sizeof replies) == 3 * REPLY + 3 * PIFNJARL_FRAME_BYTES);
    CHECK(replies[3 * REPLY + 2 * PIFNJARL_FRAME_BYTES] == PIFNJARL_ANSWER_PENDING);
}

/* The result is there, and the run has its turn, behind which its sum is the result. */
static void check_used(struct pifnjarl_durable *device)
{
    unsigned char frames[1024], replies[4096];
    size_t count = frame_of(frames, pifnjarl_scratch(entry, 0, 0));
    count += pifnjarl_frame_turn(frames + count, 0);
    count += frame_of(frames + count, pifnjarl_scratch(entry, 0, 0));
    CHECK(pifnjarl_durable_serve(device, frames, count) == PIFNJARL_DURABLE_DONE);
    CHECK(pifnjarl_durable_replies(device, 0, replies, sizeof replies) == 3 * REPLY + 2 * PIFNJARL_SCRATCH_BYTES);
    CHECK(pifnjarl_get(replies, REPLY, 2) == 'A');
    CHECK(pifnjarl_get(replies, 3 * REPLY + PIFNJARL_SCRATCH_BYTES, 2) == 2 * 'A');
    CHECK(blocks_of(device) == 2);
}

/* A device that is folded is there after each crash, with its program, the result and the run. */
static void folds(const char *path, const unsigned char *image, size_t count)
{
    int ended = 0;
    for (long calls = 0; !ended && calls < 100; calls++) {
        write_image(path, image, count);
        struct pifnjarl_durable *device = open_again(path);
        use(device);
        pifnjarl_durable_close(device);
        int told = child(path, calls, fold, &ended);
        CHECK(told == ended);
        device = open_again(path);
        check_used(device);
        pifnjarl_durable_close(device);
    }
    CHECK(ended);
}

static void refusals(const char *path)
{
    struct pifnjarl_durable *device = open_again(path), *second;
    CHECK(pifnjarl_durable_open(path, &second) == PIFNJARL_DURABLE_IN_USE && second == NULL);
    CHECK(pifnjarl_durable_open("/nowhere/image", &second) == PIFNJARL_DURABLE_CANNOT_READ && second == NULL);
    CHECK(pifnjarl_durable_open("/dev/null", &second) != PIFNJARL_DURABLE_DONE && second == NULL);
    int blocks = blocks_of(device);
    CHECK(pifnjarl_durable_fold(device) == PIFNJARL_DURABLE_DONE);
    CHECK(pifnjarl_durable_serve(device, "", 0) == PIFNJARL_DURABLE_DONE);
    CHECK(pifnjarl_durable_replies(device, 0, NULL, 0) == 0);
    unsigned char wrong[PIFNJARL_FRAME_BYTES] = {9};
    CHECK(pifnjarl_durable_serve(device, wrong, sizeof wrong) == PIFNJARL_DURABLE_NO_FRAMES);
    CHECK(pifnjarl_durable_serve(device, "", 0) == PIFNJARL_DURABLE_FAILED);
    CHECK(pifnjarl_durable_fold(device) == PIFNJARL_DURABLE_FAILED);
    pifnjarl_durable_close(device);
    device = open_again(path);
    CHECK(blocks_of(device) == blocks);
    pifnjarl_durable_close(device);
    pifnjarl_durable_close(NULL);
}

/* Which of disk, memory and frames a call failed for. */
static void causes(const char *path)
{
    struct pifnjarl_durable *device = open_again(path);
    unsigned char frame[FRAME_OF_ENTRY + BLOCK_BYTES];
    size_t count = frame_of_append(frame, 'z');
    sync_fails = 1;
    CHECK(pifnjarl_durable_serve(device, frame, count) == PIFNJARL_DURABLE_CANNOT_WRITE && errno == EIO);
    sync_fails = 0;
    CHECK(pifnjarl_durable_serve(device, frame, count) == PIFNJARL_DURABLE_FAILED);
    pifnjarl_durable_close(device);
    for (int folds = 0; folds < 2; folds++) {
        device = open_again(path);
        memory_left = 0;
        CHECK((folds ? pifnjarl_durable_fold(device) : pifnjarl_durable_serve(device, frame, count)) == PIFNJARL_DURABLE_NO_MEMORY);
        memory_left = -1;
        /* a fold that wanted memory has changed nothing */
        CHECK(pifnjarl_durable_serve(device, frame, count) == (folds ? PIFNJARL_DURABLE_DONE : PIFNJARL_DURABLE_FAILED));
        pifnjarl_durable_close(device);
    }
    CHECK(strcmp(pifnjarl_durable_words(PIFNJARL_DURABLE_NO_FRAMES), "no frames") == 0);
}

int main(int count, char **words)
{
    static unsigned char image[1 << 20];
    if (count != 2)
        return 2;
    FILE *file = fopen(words[1], "r");
    if (file == NULL)
        return 2;
    size_t size = fread(image, 1, sizeof image, file);
    fclose(file);
    crashes(words[1], image, size, 0);
    crashes(words[1], image, size, BATCH);
    folds(words[1], image, size);
    refusals(words[1]);
    causes(words[1]);
    printf("%u checks passed, %u failed\n", passed, failed);
    return failed != 0;
}
