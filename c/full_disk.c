/* A device whose journal grows long, where a new file can be written beside it or can't: full_disk IMAGE. IMAGE is replaced. Prints what
   fails, and how many checks there were. */
#define _GNU_SOURCE
#include "pifnjarl_handle.h"
#include "pifnjarl_durable.h"

#include <errno.h>
#include <stdbool.h>
#include <stdint.h>
#include <stdio.h>
#include <stdlib.h>
#include <string.h>
#include <sys/stat.h>
#include <unistd.h>

enum { BLOCK_BYTES = 512, HEADER_BYTES = 16, ENTRY_BYTES = 64, BLOCKS = 64, COMMANDS = 32 };
enum { READ = 0x02, SEND = 0x79, APPEND = 0x7d, RESET = 4 };
enum { COMMAND_BYTES = 2 * (HEADER_BYTES + ENTRY_BYTES) + BLOCKS * BLOCK_BYTES };
static const off_t LONG = 64 << 20; /* by how much a journal grows before it is folded */

static unsigned passed, failed;
static bool is_full, sync_fails, lacks_memory, folds_now;

static void check(bool holds, const char *what)
{
    if (holds) {
        passed++;
    } else {
        failed++;
        printf("failed: %s\n", what);
    }
}

#define CHECK(holds) check(holds, #holds)

/* Is it a new file, which hasn't taken the place of another one? */
static bool is_unfinished(int file)
{
    static const char ending[] = ".unfinished";
    char link[64], name[4096];
    snprintf(link, sizeof link, "/proc/self/fd/%d", file);
    ssize_t count = readlink(link, name, sizeof name);
    size_t last = sizeof ending - 1;
    return count >= (ssize_t)last && memcmp(name + count - last, ending, last) == 0;
}

/* The linker puts these in the places of the calls that write a new file and bring it to the disk. */
ssize_t __real_pwrite(int file, const void *bytes, size_t count, off_t at);
ssize_t __wrap_pwrite(int file, const void *bytes, size_t count, off_t at);
ssize_t __wrap_pwrite(int file, const void *bytes, size_t count, off_t at)
{
    if (is_full && is_unfinished(file)) {
        errno = ENOSPC;
        return -1;
    }
    return __real_pwrite(file, bytes, count, at);
}

int __real_fsync(int file);
int __wrap_fsync(int file);
int __wrap_fsync(int file)
{
    if (sync_fails && is_unfinished(file)) {
        errno = EDQUOT;
        return -1;
    }
    return __real_fsync(file);
}

/* And these in those of the library's call and of what gives it memory: there is none for a fold while memory is wanting. */
size_t __real_pifnjarl_handle_call(unsigned char *handle, uint32_t kind, size_t number, size_t count, const unsigned char *piece,
                                   size_t piece_bytes, const unsigned char *beside, size_t beside_bytes, struct pifnjarl_reply *reply,
                                   unsigned char *out, size_t room);
size_t __wrap_pifnjarl_handle_call(unsigned char *handle, uint32_t kind, size_t number, size_t count, const unsigned char *piece,
                                   size_t piece_bytes, const unsigned char *beside, size_t beside_bytes, struct pifnjarl_reply *reply,
                                   unsigned char *out, size_t room);
size_t __wrap_pifnjarl_handle_call(unsigned char *handle, uint32_t kind, size_t number, size_t count, const unsigned char *piece,
                                   size_t piece_bytes, const unsigned char *beside, size_t beside_bytes, struct pifnjarl_reply *reply,
                                   unsigned char *out, size_t room)
{
    folds_now = kind == PIFNJARL_ASK_FOLD;
    size_t answer = __real_pifnjarl_handle_call(handle, kind, number, count, piece, piece_bytes, beside, beside_bytes, reply, out, room);
    folds_now = false;
    return answer;
}

void *__real_malloc(size_t size);
void *__wrap_malloc(size_t size);
void *__wrap_malloc(size_t size)
{
    if (lacks_memory && folds_now) {
        errno = ENOMEM;
        return NULL;
    }
    return __real_malloc(size);
}

void *__real_realloc(void *old, size_t size);
void *__wrap_realloc(void *old, size_t size);
void *__wrap_realloc(void *old, size_t size)
{
    if (lacks_memory && folds_now) {
        errno = ENOMEM;
        return NULL;
    }
    return __real_realloc(old, size);
}

/* The frame of an entry for zone 0 (docs/device.md), with its data; all blocks of it begin with this number. */
static size_t frame_of(unsigned char *frame, unsigned char opcode, uint32_t thirteenth, size_t data_bytes, unsigned char number)
{
    memset(frame, 0, HEADER_BYTES + ENTRY_BYTES);
    frame[0] = 1;
    memcpy(frame + 8, &(uint32_t){(uint32_t)data_bytes}, 4);
    frame[HEADER_BYTES] = opcode;
    frame[HEADER_BYTES + 4] = 1; /* the namespace */
    uint32_t twelfth = opcode == APPEND ? BLOCKS - 1 : 0;
    memcpy(frame + HEADER_BYTES + 48, &twelfth, 4);
    memcpy(frame + HEADER_BYTES + 52, &thirteenth, 4);
    memset(frame + HEADER_BYTES + ENTRY_BYTES, number, data_bytes);
    return HEADER_BYTES + ENTRY_BYTES + data_bytes;
}

/* Writes a mebibyte: fills zone 0 again and again, and resets it before. */
static bool write_much(struct pifnjarl_durable *device, unsigned char number)
{
    static unsigned char frames[COMMANDS * COMMAND_BYTES];
    size_t count = 0;
    for (int command = 0; command < COMMANDS; command++) {
        count += frame_of(frames + count, SEND, RESET, 0, 0);
        count += frame_of(frames + count, APPEND, 0, BLOCKS * BLOCK_BYTES, number);
    }
    return pifnjarl_durable_serve(device, frames, count) == PIFNJARL_DURABLE_DONE;
}

/* Is the last block of zone 0 what was written there last? */
static bool holds(struct pifnjarl_durable *device, unsigned char number)
{
    unsigned char frame[COMMAND_BYTES], reply[HEADER_BYTES + 16 + BLOCK_BYTES], block[BLOCK_BYTES];
    size_t count = frame_of(frame, READ, 0, 0, 0);
    frame[HEADER_BYTES + 40] = BLOCKS - 1; /* its LBA */
    memset(block, number, sizeof block);
    return pifnjarl_durable_serve(device, frame, count) == PIFNJARL_DURABLE_DONE
           && pifnjarl_durable_replies(device, 0, reply, sizeof reply) == sizeof reply
           && memcmp(reply + HEADER_BYTES + 16, block, sizeof block) == 0;
}

static off_t size_of(const char *path)
{
    struct stat about;
    return stat(path, &about) == 0 ? about.st_size : -1;
}

static struct pifnjarl_durable *open_again(const char *path)
{
    struct pifnjarl_durable *device;
    CHECK(pifnjarl_durable_open(path, &device) == PIFNJARL_DURABLE_DONE);
    if (device == NULL)
        exit(1);
    return device;
}

/* Is the device's file there, and no new one beside it? */
static bool is_alone(const char *path)
{
    char unfinished[4096];
    snprintf(unfinished, sizeof unfinished, "%s.unfinished", path);
    return size_of(path) >= 0 && size_of(unfinished) < 0;
}

/* A fold whose new file can't be written, or brought to the disk, or has the name of what is no ordinary file, changes nothing, and neither
   does one without memory: the device is used on. */
static void folds(const char *path)
{
    char unfinished[4096];
    snprintf(unfinished, sizeof unfinished, "%s.unfinished", path);
    struct pifnjarl_durable *device = open_again(path);
    CHECK(write_much(device, 1));
    off_t grown = size_of(path);
    is_full = true;
    CHECK(pifnjarl_durable_fold(device) == PIFNJARL_DURABLE_NO_ROOM && errno == ENOSPC);
    is_full = false;
    sync_fails = true;
    CHECK(pifnjarl_durable_fold(device) == PIFNJARL_DURABLE_NO_ROOM && errno == EDQUOT);
    sync_fails = false;
    CHECK(mkfifo(unfinished, 0600) == 0);
    CHECK(pifnjarl_durable_fold(device) == PIFNJARL_DURABLE_NO_ROOM && errno == EEXIST && unlink(unfinished) == 0);
    lacks_memory = true;
    CHECK(pifnjarl_durable_fold(device) == PIFNJARL_DURABLE_NO_MEMORY);
    lacks_memory = false;
    CHECK(size_of(path) == grown && is_alone(path));
    CHECK(write_much(device, 2) && size_of(path) > grown);
    CHECK(pifnjarl_durable_fold(device) == PIFNJARL_DURABLE_DONE && size_of(path) < grown && holds(device, 2) && is_alone(path));
    CHECK(write_much(device, 2));
    pifnjarl_durable_close(device);
}

/* Has the last fold that was due come to this, for this cause? */
static bool has_folded(const struct pifnjarl_durable *device, enum pifnjarl_durable_result result, int cause)
{
    return pifnjarl_durable_folded(device) == result && (cause == 0 || errno == cause);
}

/* A journal that has grown long is folded, and goes on growing where it can't be: the device says so. */
static void grows(const char *path)
{
    struct pifnjarl_durable *device = open_again(path);
    CHECK(has_folded(device, PIFNJARL_DURABLE_DONE, 0));
    is_full = true;
    while (size_of(path) < LONG + LONG / 8 && write_much(device, 3))
        ;
    CHECK(size_of(path) >= LONG + LONG / 8 && has_folded(device, PIFNJARL_DURABLE_NO_ROOM, ENOSPC) && is_alone(path));
    is_full = false;
    lacks_memory = true;
    while (size_of(path) < 2 * LONG + LONG / 8 && write_much(device, 4))
        ;
    CHECK(size_of(path) >= 2 * LONG + LONG / 8 && has_folded(device, PIFNJARL_DURABLE_NO_MEMORY, 0) && holds(device, 4));
    lacks_memory = false;
    pifnjarl_durable_close(device);
}

/* It is folded when it has grown by as much again, also after it was opened: not before. */
static void is_folded(const char *path)
{
    struct pifnjarl_durable *device = open_again(path);
    off_t before = size_of(path), most = before;
    CHECK(write_much(device, 5) && size_of(path) > before);
    for (int more = 0; more < 2 * 64 && size_of(path) >= before && write_much(device, 6); more++)
        most = size_of(path) > most ? size_of(path) : most;
    CHECK(most > before + LONG - LONG / 8 && most < before + LONG + LONG / 8);
    CHECK(size_of(path) < LONG / 8 && has_folded(device, PIFNJARL_DURABLE_DONE, 0) && holds(device, 6) && is_alone(path));
    pifnjarl_durable_close(device);
    device = open_again(path);
    CHECK(holds(device, 6));
    pifnjarl_durable_close(device);
}

int main(int count, char **words)
{
    if (count != 2)
        return 2;
    folds(words[1]);
    grows(words[1]);
    is_folded(words[1]);
    printf("%u checks passed, %u failed\n", passed, failed);
    return failed != 0;
}
