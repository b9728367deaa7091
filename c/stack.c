/* How much stack calls take: each is made on a stack of its own, painted before, and what is still painted after it was not used.
   stack IMAGE. IMAGE is replaced by a journal. Prints the bytes of each call; the status is 1 where one takes more than a program owes:
   1 MiB, and 2 MiB where a device in a file is opened. */
#define _GNU_SOURCE
#include "pifnjarl_device.h"
#include "pifnjarl_durable.h"

#include <pthread.h>
#include <stdio.h>
#include <stdlib.h>
#include <string.h>
#include <sys/mman.h>

enum { ROOM = 8 << 20, LIMIT = 1 << 20, OPENING_LIMIT = 2 << 20, PAINT = 0xA5, SLOTS = 4096 };

static unsigned char output[PIFNJARL_TRANSFER_BYTES], data[PIFNJARL_TRANSFER_BYTES], entry[PIFNJARL_ENTRY_BYTES];
static unsigned char frames[3 * (PIFNJARL_FRAME_BYTES + PIFNJARL_ENTRY_BYTES + PIFNJARL_TRANSFER_BYTES)], replies[1 << 20];
static unsigned char *image;
static size_t image_bytes;
static const char *path;
static struct pifnjarl_device *device;
static struct pifnjarl_durable *durable;
static struct pifnjarl_geometry geometry;
static struct pifnjarl_reply reply;
static unsigned failed;

/* What was to be done is done. */
static void done(int holds)
{
    if (!holds)
        failed++;
}

static unsigned status_of(const void *made, const void *bytes, size_t count)
{
    struct pifnjarl_event event = {.kind = PIFNJARL_SUBMIT, .entry = made, .data = bytes, .data_bytes = count};
    if (pifnjarl_do(device, &event, &reply, output, sizeof output) != PIFNJARL_COMPLETION)
        return PIFNJARL_STATUS_LIMIT;
    return pifnjarl_completion(reply.completion).status;
}

static void opens(void) { done(pifnjarl_open(image, image_bytes, &device) == PIFNJARL_DONE); }
static void opens_path(void) { done(pifnjarl_open_path(path, &device) == PIFNJARL_DONE); }
static void closes(void) { pifnjarl_close(device); }
static void appends(void) { done(status_of(pifnjarl_append(entry, 1, 0, 32), data, 32 * geometry.block_bytes) == 0); }
static void writes(void) { done(status_of(pifnjarl_write(entry, 1, 32, 32), data, 32 * geometry.block_bytes) == 0); }
static void reads(void) { done(status_of(pifnjarl_read(entry, 1, 0, 64), NULL, 0) == 0); }
static void sends(void) { done(status_of(pifnjarl_zone_send(entry, 1, geometry.zone_blocks, PIFNJARL_OPEN_ZONE), NULL, 0) == 0); }
static void loads(void) { done(status_of(pifnjarl_load(entry, 1, 0, 512, 8 * SLOTS), data, 8 * SLOTS) == 0); }
static void scratch(void) { done(status_of(pifnjarl_scratch(entry, 1, 0), NULL, 0) == 0); }
static void saves(void) { done(pifnjarl_save_path(device, path) == PIFNJARL_DONE); }

static void reports(void)
{
    done(status_of(pifnjarl_zone_receive(entry, 1, 0, PIFNJARL_TRANSFER_BYTES, PIFNJARL_REPORT_ALL, 1), NULL, 0) == 0);
}

static void runs(void)
{
    struct pifnjarl_event event = {.kind = PIFNJARL_SUBMIT, .entry = pifnjarl_run(entry, 1, 0, 0, 2, 0, geometry.zone_blocks)};
    done(pifnjarl_do(device, &event, &reply, output, sizeof output) == PIFNJARL_PENDING);
}

static void turns(void)
{
    struct pifnjarl_event event = {.kind = PIFNJARL_TURN, .number = 0};
    done(pifnjarl_do(device, &event, &reply, output, sizeof output) == PIFNJARL_PENDING);
}

static void ends_run(void) { done(pifnjarl_turns(device, 0, 2, &reply) == PIFNJARL_COMPLETION); }
static void opens_durable(void) { done(pifnjarl_durable_open(path, &durable) == PIFNJARL_DURABLE_DONE); }
static void folds(void) { done(pifnjarl_durable_fold(durable) == PIFNJARL_DURABLE_DONE); }
static void closes_durable(void) { pifnjarl_durable_close(durable); }

static void serves(const void *bytes, size_t count)
{
    done(pifnjarl_durable_serve(durable, bytes, count) == PIFNJARL_DURABLE_DONE);
    done(pifnjarl_durable_replies(durable, 0, replies, sizeof replies) > 0);
}

/* A zone is opened, a program of the most slots loaded, and started over two blocks. */
static void serves_events(void)
{
    size_t at = pifnjarl_frame_submit(frames, 1, pifnjarl_zone_send(entry, 1, geometry.zone_blocks, PIFNJARL_OPEN_ZONE), NULL, 0);
    at += pifnjarl_frame_submit(frames + at, 1, pifnjarl_load(entry, 2, 0, 512, 8 * SLOTS), data, 8 * SLOTS);
    at += pifnjarl_frame_submit(frames + at, 1, pifnjarl_run(entry, 3, 0, 0, 2, 0, geometry.zone_blocks), NULL, 0);
    serves(frames, at);
}

static void serves_drain(void)
{
    serves(frames, pifnjarl_frame_drain(frames, 100));
}

/* A call that is measured. */
static void *on_thread(void *call)
{
    (*(void (**)(void))call)();
    return NULL;
}

static void nothing(void) {}

/* The most bytes of a painted stack that a call leaves unpainted. */
static size_t used_by(void (*call)(void))
{
    pthread_t thread;
    pthread_attr_t how;
    unsigned char *stack = mmap(NULL, ROOM, PROT_READ | PROT_WRITE, MAP_PRIVATE | MAP_ANONYMOUS | MAP_STACK, -1, 0);
    if (stack == MAP_FAILED)
        exit(2);
    memset(stack, PAINT, ROOM);
    if (pthread_attr_init(&how) != 0 || pthread_attr_setstack(&how, stack, ROOM) != 0 ||
        pthread_create(&thread, &how, on_thread, &call) != 0 || pthread_join(thread, NULL) != 0)
        exit(2);
    size_t left = 0;
    while (left < ROOM && stack[left] == PAINT)
        left++;
    munmap(stack, ROOM);
    return ROOM - left;
}

/* A program of the most slots, every second of which is a jump, that emits a whole block but its length. */
static void make_program(void)
{
    static const unsigned char mov[8] = {0xb7, 6}, jump[8] = {0x55, 6, 1}, emits[5][8] = {
        {0xbf, 0x21}, {0xb7, 2, 0, 0, 0xfe, 1}, {0x85, 0, 0, 0, 1}, {0xb7, 0}, {0x95}};
    for (int slot = 0; slot < SLOTS - 5; slot++)
        memcpy(data + 8 * slot, slot % 2 == 1 ? jump : mov, 8);
    memcpy(data + 8 * (SLOTS - 5), emits, sizeof emits);
}

static const struct {
    const char *name;
    void (*call)(void);
} calls[] = {
    {"open", opens}, {"append", appends}, {"write", writes}, {"read", reads}, {"zone send", sends}, {"zone receive", reports},
    {"load", loads}, {"run", runs}, {"turn", turns}, {"turns", ends_run}, {"result", scratch}, {"save to a path", saves}, {"close", closes},
    {"open a path", opens_path}, {"close", closes}, {"durable open", opens_durable}, {"durable serve of events", serves_events},
    {"durable serve of a drain", serves_drain}, {"durable fold", folds}, {"durable close", closes_durable},
    {"durable open of a journal", opens_durable}, {"durable close", closes_durable},
};

int main(int count, char **words)
{
    FILE *file = count == 2 ? fopen(words[1], "r") : NULL;
    path = words[1];
    image = malloc(1 << 20);
    if (file == NULL || image == NULL)
        return 2;
    image_bytes = fread(image, 1, 1 << 20, file);
    fclose(file);
    geometry = pifnjarl_geometry_of(image, image_bytes);
    make_program();
    size_t most = 0, most_of_opening = 0, thread = used_by(nothing);
    for (size_t i = 0; i < sizeof calls / sizeof *calls; i++) {
        size_t used = used_by(calls[i].call);
        used = used > thread ? used - thread : 0;
        printf("%s: %zu bytes of stack\n", calls[i].name, used);
        size_t *among = calls[i].call == opens_durable ? &most_of_opening : &most;
        *among = used > *among ? used : *among;
    }
    printf("at most %zu bytes, opening a device in a file %zu, %u calls failed\n", most, most_of_opening, failed);
    free(image);
    return failed != 0 || most > LIMIT || most_of_opening > OPENING_LIMIT;
}
