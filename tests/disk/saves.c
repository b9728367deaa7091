/* Appends a block to the zone of LBA 0 and saves the image: saves IMAGE BYTE. The block is full of the byte. It ends with status 0 if all
   is done. */
#include "pifnjarl_device.h"

#include <stdio.h>
#include <string.h>

enum { BLOCK_BYTES = 512, APPEND = 0x7d };

int main(int count, char **words)
{
    static unsigned char output[PIFNJARL_TRANSFER_BYTES];
    unsigned char block[BLOCK_BYTES], entry[PIFNJARL_ENTRY_BYTES] = {APPEND, 0, 1, 0, 1};
    struct pifnjarl_device *device;
    struct pifnjarl_reply reply;
    if (count != 3 || pifnjarl_open_path(words[1], &device) != PIFNJARL_DONE)
        return 2;
    memset(block, words[2][0], sizeof block);
    struct pifnjarl_event event = {.kind = PIFNJARL_SUBMIT, .number = 1, .entry = entry, .data = block, .data_bytes = sizeof block};
    enum pifnjarl_result done = pifnjarl_do(device, &event, &reply, output, sizeof output);
    enum pifnjarl_result saved = pifnjarl_save_path(device, words[1]);
    if (saved != PIFNJARL_DONE)
        fprintf(stderr, "saves: %s\n", pifnjarl_words(saved));
    pifnjarl_close(device);
    return done != PIFNJARL_COMPLETION || saved != PIFNJARL_DONE;
}
