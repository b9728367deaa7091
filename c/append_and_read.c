/* Appends a block to zone 0 of an image, reads it back, and saves the image: append_and_read IMAGE SAVED */
#include "pifnjarl_device.h"

#include <inttypes.h>
#include <stdio.h>
#include <stdlib.h>
#include <string.h>

static unsigned char output[PIFNJARL_TRANSFER_BYTES], entry[PIFNJARL_ENTRY_BYTES];
static struct pifnjarl_device *device;
static struct pifnjarl_reply reply;

/* Submits an entry to queue 1, and ends the program where it isn't done; its completion. */
static struct pifnjarl_completion submit(const char *what, const void *made, const void *data, size_t data_bytes)
{
    struct pifnjarl_event event = {
        .kind = PIFNJARL_SUBMIT, .number = 1, .entry = made, .data = data, .data_bytes = data_bytes};
    enum pifnjarl_result result = pifnjarl_do(device, &event, &reply, output, sizeof output);
    struct pifnjarl_completion completion = pifnjarl_completion(reply.completion);
    if (result == PIFNJARL_COMPLETION && completion.status == 0)
        return completion;
    printf("%s: %s\n", what,
           result == PIFNJARL_COMPLETION ? pifnjarl_status_text(completion.status) : pifnjarl_words(result));
    exit(1);
}

int main(int count, char **words)
{
    struct pifnjarl_geometry geometry;
    if (count != 3)
        return 2;
    enum pifnjarl_result result = pifnjarl_open_path(words[1], &device);
    if (result != PIFNJARL_DONE) {
        printf("%s: %s\n", words[1], pifnjarl_words(result));
        return 1;
    }
    pifnjarl_geometry(device, &geometry);
    printf("%" PRIu32 " zones of %" PRIu32 " blocks of %" PRIu32 " bytes\n", geometry.zones, geometry.zone_blocks,
           geometry.block_bytes);
    unsigned char *block = malloc(geometry.block_bytes);
    if (block == NULL)
        return 1;
    memset(block, 'a', geometry.block_bytes);

    uint64_t lba = pifnjarl_lba(submit("append", pifnjarl_append(entry, 1, 0, 1), block, geometry.block_bytes));
    printf("append: to LBA %" PRIu64 "\n", lba);
    submit("read", pifnjarl_read(entry, 2, lba, 1), NULL, 0);
    printf("read: %zu bytes, %s\n", reply.data_bytes, memcmp(output, block, geometry.block_bytes) == 0 ? "the same" : "others");
    free(block);

    result = pifnjarl_save_path(device, words[2]);
    printf("save: %s\n", pifnjarl_words(result));
    pifnjarl_close(device);
    return result != PIFNJARL_DONE;
}
