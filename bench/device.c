/* Times a device of the library for C: turns of a run, by a call for each and by one for all, beside Reads of one block, Appends beside
   copies of the same bytes, and runs that are admitted and refused.

   device FILTER          runs the filter over the source blocks in both ways, and prints what its completion says
   device FILTER ROUNDS   prints the least times of so many rounds; of Appends their rate beside that of copies */
#define _POSIX_C_SOURCE 199309L
#include "../c/pifnjarl_device.h"

#include <stdbool.h>
#include <stdio.h>
#include <stdlib.h>
#include <string.h>
#include <time.h>

enum { READ = 0x02, SEND = 0x79, APPEND = 0x7d, RUN = 0xc0, LOAD = 0xc1 };
enum { OPEN = 3, RESET = 4 };
enum {
    BLOCK = 4096,           /* bytes */
    SOURCE = 4096,          /* written blocks of zone 0 of the large device */
    CACHED = 64,            /* so many stay in a processor's cache, with all that a run over them takes; the small device has these */
    MOST_BLOCKS = PIFNJARL_TRANSFER_BYTES / BLOCK,
    REFUSALS = 1000,        /* runs that are refused in a round */
    ADMISSIONS = 8,         /* runs that are admitted in a round: the first meets cold caches */
    LIMIT = 66,             /* the most bytes that the filter emits for a block */
    ZONES = 3,
    IMAGE_BYTES = 64 + 8 * ZONES, /* an image without a written block: a header, and a row for each zone */
};

/* A device of three zones, of twice as many blocks as are written of zone 0. */
struct device {
    struct pifnjarl_device *library;
    unsigned zone_size; /* blocks */
};

static unsigned char output[PIFNJARL_TRANSFER_BYTES];
static struct pifnjarl_reply reply;

static void fail(const char *why)
{
    fprintf(stderr, "%s\n", why);
    exit(1);
}

/* The nanoseconds of a clock that only goes on. */
static uint64_t now(void)
{
    struct timespec at;
    clock_gettime(CLOCK_MONOTONIC, &at);
    return (uint64_t)at.tv_sec * 1000000000 + (uint64_t)at.tv_nsec;
}

static uint64_t least(uint64_t one, uint64_t other)
{
    return one < other ? one : other;
}

/* ---- events */

struct entry {
    unsigned char bytes[PIFNJARL_ENTRY_BYTES];
};

/* An entry of these dwords 10 to 15 (docs/device.md). */
static struct entry entry_of(unsigned opcode, const uint32_t dwords[6])
{
    struct entry entry = {{0}};
    entry.bytes[0] = (unsigned char)opcode;
    entry.bytes[4] = 1;
    for (int i = 0; i < 24; i++)
        entry.bytes[40 + i] = (unsigned char)(dwords[i / 4] >> 8 * (i % 4));
    return entry;
}

static struct entry run_entry(unsigned first, unsigned blocks, unsigned to)
{
    return entry_of(RUN, (uint32_t[6]){first, 0, blocks - 1, 0, to, 0});
}

static struct entry append_entry(unsigned zone, unsigned blocks)
{
    return entry_of(APPEND, (uint32_t[6]){zone, 0, blocks - 1});
}

/* By what it came to: is an event done, and not refused? */
static bool is_done(enum pifnjarl_result result)
{
    return result == PIFNJARL_PENDING || (result == PIFNJARL_COMPLETION && reply.completion[14] == 0 && reply.completion[15] == 0);
}

static bool happens(struct device *device, const struct pifnjarl_event *event)
{
    return is_done(pifnjarl_do(device->library, event, &reply, output, sizeof output));
}

static bool submits(struct device *device, const struct entry *entry, const void *data, size_t data_bytes)
{
    struct pifnjarl_event event = {
        .kind = PIFNJARL_SUBMIT, .number = 1, .entry = entry->bytes, .data = data, .data_bytes = data_bytes};
    return happens(device, &event);
}

/* Submits an entry, which has to succeed. */
static void submit(struct device *device, struct entry entry, const void *data, size_t data_bytes)
{
    if (!submits(device, &entry, data, data_bytes))
        fail("a command was refused");
}

static void send_to(struct device *device, unsigned zone, unsigned action)
{
    submit(device, entry_of(SEND, (uint32_t[6]){zone, 0, 0, action}), NULL, 0);
}

/* ---- devices */

static void put(unsigned char *to, size_t bytes, uint64_t number)
{
    for (size_t i = 0; i < bytes; i++)
        to[i] = (unsigned char)(number >> 8 * i);
}

/* The filter, from a file. */
static size_t read_filter(const char *path, unsigned char *bytes, size_t room)
{
    FILE *file = fopen(path, "rb");
    size_t size = file == NULL ? 0 : fread(bytes, 1, room, file);
    if (size == 0)
        fail("no filter");
    fclose(file);
    return size;
}

/* A device with as many blocks in zone 0, all bytes of block i being i modulo 251, and with the filter in slot 0. */
static struct device open_device(unsigned written, const unsigned char *filter, size_t filter_bytes)
{
    struct device device = {.zone_size = 2 * written};
    const uint32_t shape[6] = {BLOCK, ZONES, device.zone_size, device.zone_size, ZONES, ZONES};
    unsigned char image[IMAGE_BYTES] = "ZNSIMG02";
    for (int i = 0; i < 6; i++)
        put(image + 8 + 4 * i, 4, shape[i]);
    for (int zone = 0; zone < ZONES; zone++)
        image[64 + 8 * zone] = 1; /* Empty */
    if (pifnjarl_open(image, sizeof image, &device.library) != PIFNJARL_DONE)
        fail("no device");
    static unsigned char block[BLOCK];
    for (unsigned i = 0; i < written; i++) {
        memset(block, (int)(i % 251), sizeof block);
        submit(&device, append_entry(0, 1), block, sizeof block);
    }
    submit(&device, entry_of(LOAD, (uint32_t[6]){0, LIMIT, (uint32_t)filter_bytes}), filter, filter_bytes);
    return device;
}

/* ---- what is timed, in nanoseconds */

struct run {
    uint64_t admission;
    uint64_t turns; /* all of them */
};

/* Turns of run 0, as many as it has blocks, by a call for each: is all done? */
static bool turned_singly(struct device *device, unsigned blocks)
{
    struct pifnjarl_event turn = {.kind = PIFNJARL_TURN};
    bool done = true;
    for (unsigned i = 0; i < blocks; i++)
        done &= happens(device, &turn);
    return done;
}

/* By one call. */
static bool turned_at_once(struct device *device, unsigned blocks)
{
    return is_done(pifnjarl_turns(device->library, 0, blocks, &reply));
}

/* A whole run over so many blocks to zone 1, which is emptied. */
static struct run whole_run(struct device *device, unsigned blocks, bool (*turned)(struct device *, unsigned))
{
    send_to(device, device->zone_size, RESET);
    send_to(device, device->zone_size, OPEN);
    struct entry entry = run_entry(0, blocks, device->zone_size);
    uint64_t begin = now();
    bool done = submits(device, &entry, NULL, 0);
    uint64_t admitted = now();
    done &= turned(device, blocks);
    uint64_t end = now();
    if (!done || reply.number != 1)
        fail("the run did not end with its last block");
    return (struct run){.admission = admitted - begin, .turns = end - admitted};
}

/* The turns of a run over few blocks: the least of as many runs as go over all. */
static uint64_t cached_turns(struct device *device, bool (*turned)(struct device *, unsigned))
{
    uint64_t turns = UINT64_MAX;
    for (int i = 0; i < SOURCE / CACHED; i++)
        turns = least(turns, whole_run(device, CACHED, turned).turns);
    return turns;
}

static uint64_t admission(struct device *device, unsigned blocks)
{
    uint64_t spent = UINT64_MAX;
    for (int i = 0; i < ADMISSIONS; i++)
        spent = least(spent, whole_run(device, blocks, turned_at_once).admission);
    return spent;
}

/* Refusing a run, of whose blocks, from `first` on or a few after it, the last isn't written. */
static uint64_t refusal(struct device *device, unsigned first, unsigned blocks)
{
    static struct entry entries[REFUSALS];
    for (unsigned i = 0; i < REFUSALS; i++)
        entries[i] = run_entry(first + i % 8, blocks, device->zone_size);
    bool admitted = false;
    uint64_t begin = now();
    for (unsigned i = 0; i < REFUSALS; i++)
        admitted |= submits(device, &entries[i], NULL, 0);
    uint64_t spent = now() - begin;
    if (admitted)
        fail("a run was admitted");
    return spent / REFUSALS;
}

/* Reading the run's source blocks, one by one. */
static uint64_t reads(struct device *device)
{
    static struct entry entries[SOURCE];
    for (unsigned i = 0; i < SOURCE; i++)
        entries[i] = entry_of(READ, (uint32_t[6]){i});
    bool done = true;
    uint64_t begin = now();
    for (unsigned i = 0; i < SOURCE; i++)
        done &= submits(device, &entries[i], NULL, 0);
    uint64_t spent = now() - begin;
    if (!done)
        fail("a Read was refused");
    return spent;
}

static unsigned char source[PIFNJARL_TRANSFER_BYTES];

/* Filling zone 2 by Appends of so many blocks. */
static uint64_t appends(struct device *device, unsigned blocks)
{
    unsigned zone = 2 * device->zone_size;
    struct entry entry = append_entry(zone, blocks);
    send_to(device, zone, RESET);
    bool done = true;
    uint64_t begin = now();
    for (unsigned i = 0; i < device->zone_size / blocks; i++)
        done &= submits(device, &entry, source, (size_t)blocks * BLOCK);
    uint64_t spent = now() - begin;
    if (!done)
        fail("an Append was refused");
    return spent;
}

/* Filling as many bytes by copies of so many blocks. */
static uint64_t copies(unsigned char *target, unsigned blocks)
{
    uint64_t begin = now();
    for (unsigned i = 0; i < 2 * SOURCE / blocks; i++) {
        memcpy(target + (size_t)i * blocks * BLOCK, source, (size_t)blocks * BLOCK);
        __asm__ volatile("" : : "r"(target) : "memory"); /* each copy is made */
    }
    return now() - begin;
}

/* ---- what is printed */

static void compare_turns(struct device *large, int rounds)
{
    uint64_t singly = UINT64_MAX, at_once = UINT64_MAX, read = UINT64_MAX, cached_singly = UINT64_MAX, cached_at_once = UINT64_MAX;
    for (int round = 0; round < rounds; round++) {
        singly = least(singly, whole_run(large, SOURCE, turned_singly).turns);
        at_once = least(at_once, whole_run(large, SOURCE, turned_at_once).turns);
        read = least(read, reads(large));
        cached_singly = least(cached_singly, cached_turns(large, turned_singly));
        cached_at_once = least(cached_at_once, cached_turns(large, turned_at_once));
    }
    printf("%llu ns a turn by pifnjarl_do\n", (unsigned long long)singly / SOURCE);
    printf("%llu ns a turn by pifnjarl_turns\n", (unsigned long long)at_once / SOURCE);
    printf("%llu ns a Read of one block\n", (unsigned long long)read / SOURCE);
    printf("%llu ns a turn over %d blocks by pifnjarl_do\n", (unsigned long long)cached_singly / CACHED, CACHED);
    printf("%llu ns a turn over %d blocks by pifnjarl_turns\n", (unsigned long long)cached_at_once / CACHED, CACHED);
}

static void compare_appends(struct device *large, unsigned blocks, int rounds)
{
    unsigned char *target = calloc(2 * SOURCE, BLOCK);
    if (target == NULL)
        fail("no memory");
    uint64_t appended = UINT64_MAX, copied = UINT64_MAX;
    for (int round = 0; round < rounds; round++) {
        appended = least(appended, appends(large, blocks));
        copied = least(copied, copies(target, blocks));
    }
    free(target);
    printf("Appends of %u KiB at %llu %% of the rate of copies\n", blocks * BLOCK / 1024, (unsigned long long)(copied * 100 / appended));
}

static void compare_admissions(struct device *small, struct device *large, int rounds)
{
    uint64_t one = UINT64_MAX, many = UINT64_MAX, one_in_small = UINT64_MAX;
    for (int round = 0; round < rounds; round++) {
        one = least(one, admission(large, 1));
        many = least(many, admission(large, SOURCE));
        one_in_small = least(one_in_small, admission(small, 1));
    }
    printf("%llu ns to admit a run over one block, %llu ns over %d, %llu ns on a small image\n", (unsigned long long)one,
           (unsigned long long)many, SOURCE, (unsigned long long)one_in_small);
}

static void compare_refusals(struct device *small, struct device *large, int rounds)
{
    uint64_t one = UINT64_MAX, many = UINT64_MAX, one_in_small = UINT64_MAX;
    for (int round = 0; round < rounds; round++) {
        one = least(one, refusal(large, SOURCE, 1));
        many = least(many, refusal(large, SOURCE - 8, SOURCE));
        one_in_small = least(one_in_small, refusal(small, CACHED, 1));
    }
    printf("%llu ns to refuse a run over one block, %llu ns over %d, %llu ns on a small image\n", (unsigned long long)one,
           (unsigned long long)many, SOURCE, (unsigned long long)one_in_small);
}

int main(int count, char **words)
{
    static unsigned char filter[PIFNJARL_TRANSFER_BYTES];
    if (count < 2 || count > 3) {
        fprintf(stderr, "device FILTER [ROUNDS]\n");
        return 2;
    }
    size_t filter_bytes = read_filter(words[1], filter, sizeof filter);
    struct device large = open_device(SOURCE, filter, filter_bytes);
    if (count == 2) {
        unsigned char singly[PIFNJARL_COMPLETION_BYTES];
        whole_run(&large, SOURCE, turned_singly);
        memcpy(singly, reply.completion, sizeof singly);
        whole_run(&large, SOURCE, turned_at_once);
        if (memcmp(singly, reply.completion, sizeof singly) != 0)
            fail("the run came to something else in one call");
        const unsigned char *dword = reply.completion;
        printf("%u records in %u blocks\n", dword[0] | dword[1] << 8 | dword[2] << 16 | (unsigned)dword[3] << 24,
               dword[4] | dword[5] << 8 | dword[6] << 16 | (unsigned)dword[7] << 24);
    } else {
        int rounds = atoi(words[2]);
        struct device small = open_device(CACHED, filter, filter_bytes);
        memset(source, 0xa5, sizeof source);
        compare_turns(&large, rounds);
        compare_appends(&large, 1, rounds);
        compare_appends(&large, MOST_BLOCKS, rounds);
        compare_admissions(&small, &large, rounds);
        compare_refusals(&small, &large, rounds);
        pifnjarl_close(small.library);
    }
    pifnjarl_close(large.library);
    return 0;
}
