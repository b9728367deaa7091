/* Runs a filter over zone 0 while blocks are appended to zone 2, and reads what it emitted to zone 1: run_a_filter IMAGE.
   The image has blocks of 512 bytes, as examples/empty.img. */
#include "pifnjarl_device.h"

#include <stdio.h>
#include <string.h>

enum { BLOCK_BYTES = 512, BLOCKS = 8, RECORD_BYTES = 64, LENGTH_BYTES = 2 };

/* examples/filter.c: emits a block's first 64 bytes where the number in its bytes 8 to 11 is the run's argument */
static const unsigned char filter[] = {
    0x61, 0x11, 0x14, 0, 0,    0, 0, 0, 0x61, 0x23, 8, 0, 0, 0, 0, 0, 0x5e, 0x13, 3, 0, 0, 0, 0, 0, 0xbf, 0x21, 0, 0, 0, 0, 0, 0,
    0xb7, 2,    0,    0, 0x40, 0, 0, 0, 0x85, 0,    0, 0, 1, 0, 0, 0, 0xb7, 0,    0, 0, 0, 0, 0, 0, 0x95, 0,    0, 0, 0, 0, 0, 0};

static unsigned char output[PIFNJARL_TRANSFER_BYTES], entry[PIFNJARL_ENTRY_BYTES];
static struct pifnjarl_device *device;
static struct pifnjarl_reply reply;

/* Says what is replied. */
static void tell(const char *what, enum pifnjarl_result result)
{
    struct pifnjarl_completion completion = pifnjarl_completion(reply.completion);
    printf("%s: %s", what, pifnjarl_words(result));
    if (result == PIFNJARL_COMPLETION)
        printf(", %s, dwords %u %u", pifnjarl_status_text(completion.status), (unsigned)completion.dword0, (unsigned)completion.dword1);
    printf("\n");
}

/* Submits an entry to a queue. */
static void submit(const char *what, uint16_t queue, const void *made, const void *data, size_t data_bytes)
{
    struct pifnjarl_event event = {
        .kind = PIFNJARL_SUBMIT, .number = queue, .entry = made, .data = data, .data_bytes = data_bytes};
    tell(what, pifnjarl_do(device, &event, &reply, output, sizeof output));
}

/* Prints the records of a block: each has its length in front, the lowest byte first. */
static void print_records(const unsigned char *block)
{
    for (size_t at = 0; at + LENGTH_BYTES <= BLOCK_BYTES;) {
        size_t length = (size_t)pifnjarl_get(block, at, LENGTH_BYTES);
        if (length == 0)
            return;
        printf("a record of %zu bytes: %.16s\n", length, (const char *)block + at + LENGTH_BYTES + 16);
        at += LENGTH_BYTES + length;
    }
}

/* The run's turns, three at a time, with an append from another queue before each three. */
static void turns(uint64_t appended_to, const void *block)
{
    uint16_t cid = 0;
    while (pifnjarl_lowest_run(device) != PIFNJARL_NO_RUN) {
        submit("append to zone 2", 2, pifnjarl_append(entry, ++cid, appended_to, 1), block, BLOCK_BYTES);
        tell("at most three turns", pifnjarl_turns(device, pifnjarl_lowest_run(device), 3, &reply));
    }
}

int main(int count, char **words)
{
    static unsigned char orders[BLOCKS][BLOCK_BYTES];
    struct pifnjarl_geometry geometry;
    if (count != 2 || pifnjarl_open_path(words[1], &device) != PIFNJARL_DONE)
        return 2;
    pifnjarl_geometry(device, &geometry);
    if (geometry.block_bytes != BLOCK_BYTES)
        return 2;
    for (unsigned i = 0; i < BLOCKS; i++) {
        pifnjarl_put(orders[i] + 8, i % 3, 4);
        snprintf((char *)orders[i] + 16, 16, "order %02u", i);
    }
    uint64_t zone1 = geometry.zone_blocks, zone2 = 2 * zone1;
    submit("append to zone 0", 1, pifnjarl_append(entry, 1, 0, BLOCKS), orders, sizeof orders);
    submit("open zone 1", 1, pifnjarl_zone_send(entry, 2, zone1, PIFNJARL_OPEN_ZONE), NULL, 0);
    submit("load", 1, pifnjarl_load(entry, 3, 0, RECORD_BYTES + LENGTH_BYTES, sizeof filter), filter, sizeof filter);
    submit("run", 1, pifnjarl_run(entry, 4, 0, 0, BLOCKS, 2, zone1), NULL, 0);
    turns(zone2, orders[0]);
    submit("read zone 1", 1, pifnjarl_read(entry, 5, zone1, 1), NULL, 0);
    print_records(output);
    pifnjarl_close(device);
    return 0;
}
