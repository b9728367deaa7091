/* Calls that are refused, faults, turns at once, want of memory, and what saving replaces: calls IMAGE. IMAGE.saved and IMAGE.saved.unfinished are
   written. Prints what fails, and how many checks there were. */
#define _GNU_SOURCE
#include "pifnjarl_device.h"

#include <errno.h>
#include <fcntl.h>
#include <stdio.h>
#include <stdlib.h>
#include <string.h>
#include <sys/file.h>
#include <sys/stat.h>
#include <unistd.h>

static unsigned passed, failed;
static long requests_left = -1;

/* The linker puts this in malloc's place: it refuses a request, where none is left. */
void *__real_malloc(size_t size);
void *__wrap_malloc(size_t size);
void *__wrap_malloc(size_t size)
{
    if (requests_left == 0)
        return NULL;
    if (requests_left > 0)
        requests_left--;
    return __real_malloc(size);
}

/* And this in fsync's: the disk fails for a folder, where it is to. */
static int folders_fail;
int __real_fsync(int file);
int __wrap_fsync(int file);
int __wrap_fsync(int file)
{
    struct stat about;
    if (!folders_fail || fstat(file, &about) != 0 || !S_ISDIR(about.st_mode))
        return __real_fsync(file);
    errno = EIO;
    return -1;
}

static void check(int holds, const char *what)
{
    if (holds) {
        passed++;
    } else {
        failed++;
        printf("failed: %s\n", what);
    }
}

#define CHECK(holds) check(holds, #holds)

static unsigned char output[PIFNJARL_TRANSFER_BYTES], before[PIFNJARL_TRANSFER_BYTES], entry[PIFNJARL_ENTRY_BYTES];
static struct pifnjarl_device *device;
static struct pifnjarl_reply reply;

static enum pifnjarl_result happens(uint32_t kind, uint32_t number)
{
    struct pifnjarl_event event = {.kind = kind, .number = number, .entry = entry};
    return pifnjarl_do(device, &event, &reply, output, sizeof output);
}

static void refusals(void)
{
    struct pifnjarl_event event = {.kind = PIFNJARL_SUBMIT, .entry = entry};
    CHECK(pifnjarl_do(NULL, &event, &reply, output, sizeof output) == PIFNJARL_NO_DEVICE);
    CHECK(pifnjarl_do(device, NULL, &reply, output, sizeof output) == PIFNJARL_NULL_POINTER);
    CHECK(pifnjarl_do(device, &event, NULL, output, sizeof output) == PIFNJARL_NULL_POINTER);
    CHECK(pifnjarl_do(device, &event, &reply, NULL, 1) == PIFNJARL_NULL_POINTER);
    CHECK(pifnjarl_do(device, &event, &reply, NULL, 0) == PIFNJARL_WRONG_SIZE);
    memcpy(before, output, sizeof output);
    CHECK(pifnjarl_do(device, &event, &reply, output, sizeof output - 1) == PIFNJARL_WRONG_SIZE);
    event.entry = NULL;
    CHECK(pifnjarl_do(device, &event, &reply, output, sizeof output) == PIFNJARL_NULL_POINTER);
    CHECK(happens(0, 0) == PIFNJARL_UNKNOWN_KIND);
    CHECK(happens(5, 0) == PIFNJARL_UNKNOWN_KIND);
    CHECK(happens(PIFNJARL_SUBMIT, 65536) == PIFNJARL_NUMBER_TOO_LARGE);
    CHECK(happens(PIFNJARL_TURN, 256) == PIFNJARL_NUMBER_TOO_LARGE);
    CHECK(memcmp(before, output, sizeof output) == 0);
    CHECK(pifnjarl_lowest_run(NULL) == PIFNJARL_NO_RUN);
    CHECK(pifnjarl_geometry(NULL, NULL) == PIFNJARL_NO_DEVICE && pifnjarl_geometry(device, NULL) == PIFNJARL_NULL_POINTER);
    CHECK(pifnjarl_save_path(device, "/nowhere/image") == PIFNJARL_CANNOT_WRITE);
    pifnjarl_close(NULL);
}

static void events(void)
{
    CHECK(happens(PIFNJARL_TURN, 255) == PIFNJARL_IDLE);
    CHECK(happens(PIFNJARL_SUBMIT, 65535) == PIFNJARL_COMPLETION && reply.number == 65535 && reply.data_bytes == 0);
    CHECK(happens(PIFNJARL_FAULT_READ_ONLY, 3) == PIFNJARL_FAULT_TAKEN);
    CHECK(happens(PIFNJARL_FAULT_OFFLINE, 3) == PIFNJARL_FAULT_TAKEN);
    CHECK(happens(PIFNJARL_FAULT_READ_ONLY, 3) == PIFNJARL_FAULT_REFUSED);
    CHECK(happens(PIFNJARL_FAULT_OFFLINE, UINT32_MAX) == PIFNJARL_FAULT_REFUSED);
    CHECK(pifnjarl_lowest_run(device) == PIFNJARL_NO_RUN);
}

/* The numbers of an image that is in place of the old one, which a report of the zones agrees with. */
static void geometries(void)
{
    struct pifnjarl_geometry geometry;
    CHECK(pifnjarl_geometry(device, &geometry) == PIFNJARL_DONE);
    CHECK(geometry.block_bytes == 512 && geometry.zones == 4 && geometry.zone_blocks == 64 && geometry.zone_capacity == 64);
    CHECK(geometry.most_open == 3 && geometry.most_active == 3);
    struct pifnjarl_event event = {.kind = PIFNJARL_SUBMIT, .number = 1};
    event.entry = pifnjarl_zone_receive(entry, 7, 0, 5 * PIFNJARL_DESCRIPTOR_BYTES, PIFNJARL_REPORT_ALL, 0);
    CHECK(pifnjarl_do(device, &event, &reply, output, sizeof output) == PIFNJARL_COMPLETION);
    CHECK(pifnjarl_completion(reply.completion).cid == 7 && pifnjarl_completion(reply.completion).status == 0);
    CHECK(reply.data_bytes == 5 * PIFNJARL_DESCRIPTOR_BYTES && pifnjarl_report_zones(output) == geometry.zones);
    struct pifnjarl_zone zone = pifnjarl_report_zone(output, 2);
    CHECK(zone.start == 128 && zone.capacity == 64 && zone.write_pointer == 128 && zone.state == PIFNJARL_ZONE_EMPTY);
    zone = pifnjarl_report_zone(output, 3);
    CHECK(zone.start == 192 && zone.write_pointer == UINT64_MAX && zone.state == PIFNJARL_ZONE_OFFLINE);
    event.entry = pifnjarl_append(entry, 8, 0, 0);
    CHECK(pifnjarl_do(device, &event, &reply, output, sizeof output) == PIFNJARL_NULL_POINTER);
}

/* A device on an image, of which run 0 goes over eight blocks, and emits each without its last two bytes: so each turn but the first
   writes a block. */
static struct pifnjarl_device *with_run(const char *image)
{
    static const unsigned char emits[5][8] = {{0xbf, 0x21}, {0xb7, 2, 0, 0, 0xfe, 1}, {0x85, 0, 0, 0, 1}, {0xb7, 0}, {0x95}};
    static unsigned char blocks[8][512];
    struct pifnjarl_device *other = NULL;
    struct pifnjarl_event event = {.kind = PIFNJARL_SUBMIT, .number = 1, .entry = entry};
    CHECK(pifnjarl_open_path(image, &other) == PIFNJARL_DONE);
    for (int i = 0; i < 8; i++)
        blocks[i][0] = (unsigned char)i;
    event.data = blocks;
    event.data_bytes = sizeof blocks;
    pifnjarl_append(entry, 1, 0, 8);
    CHECK(pifnjarl_do(other, &event, &reply, output, sizeof output) == PIFNJARL_COMPLETION);
    event.data = emits;
    event.data_bytes = sizeof emits;
    pifnjarl_load(entry, 2, 0, 512, sizeof emits);
    CHECK(pifnjarl_do(other, &event, &reply, output, sizeof output) == PIFNJARL_COMPLETION);
    event.data_bytes = 0;
    pifnjarl_zone_send(entry, 3, 64, PIFNJARL_OPEN_ZONE);
    CHECK(pifnjarl_do(other, &event, &reply, output, sizeof output) == PIFNJARL_COMPLETION);
    pifnjarl_run(entry, 4, 0, 0, 8, 0, 64);
    CHECK(pifnjarl_do(other, &event, &reply, output, sizeof output) == PIFNJARL_PENDING && reply.number == 0);
    return other;
}

static int have_same_image(struct pifnjarl_device *one, struct pifnjarl_device *other)
{
    static unsigned char image[1 << 20], again[1 << 20];
    size_t count = 0, second = 0;
    return pifnjarl_save(one, image, sizeof image, &count) == PIFNJARL_DONE
        && pifnjarl_save(other, again, sizeof again, &second) == PIFNJARL_DONE && count == second && memcmp(image, again, count) == 0;
}

/* Turns at once, of which so many are given, come to what they come to on a device like it one by one. */
static enum pifnjarl_result come_to(struct pifnjarl_device *at_once, struct pifnjarl_device *one_by_one, uint32_t most, unsigned given)
{
    struct pifnjarl_event turn = {.kind = PIFNJARL_TURN};
    struct pifnjarl_reply last;
    enum pifnjarl_result result = pifnjarl_turns(at_once, 0, most, &reply), one = PIFNJARL_DONE;
    for (unsigned i = 0; i < given; i++)
        one = pifnjarl_do(one_by_one, &turn, &last, output, sizeof output);
    CHECK(result == one && reply.data_bytes == last.data_bytes && reply.number == last.number);
    CHECK(memcmp(reply.completion, last.completion, sizeof last.completion) == 0);
    CHECK(have_same_image(at_once, one_by_one));
    return result;
}

static void turns(const char *image)
{
    struct pifnjarl_device *at_once = with_run(image), *one_by_one = with_run(image);
    struct pifnjarl_reply kept;
    memset(&reply, 0xa5, sizeof reply);
    memcpy(&kept, &reply, sizeof reply);
    CHECK(pifnjarl_turns(NULL, 0, 1, &reply) == PIFNJARL_NO_DEVICE);
    CHECK(pifnjarl_turns(at_once, 0, 1, NULL) == PIFNJARL_NULL_POINTER);
    CHECK(pifnjarl_turns(at_once, 256, 1, &reply) == PIFNJARL_NUMBER_TOO_LARGE);
    CHECK(memcmp(&kept, &reply, sizeof reply) == 0);
    CHECK(pifnjarl_turns(at_once, 1, 8, &reply) == PIFNJARL_IDLE && reply.number == 0);
    CHECK(pifnjarl_turns(at_once, 255, 0, &reply) == PIFNJARL_IDLE);
    CHECK(have_same_image(at_once, one_by_one));
    CHECK(come_to(at_once, one_by_one, 0, 1) == PIFNJARL_PENDING);
    CHECK(come_to(at_once, one_by_one, 1, 1) == PIFNJARL_PENDING);
    CHECK(come_to(at_once, one_by_one, 3, 3) == PIFNJARL_PENDING && reply.number == 0);
    CHECK(come_to(at_once, one_by_one, 3, 3) == PIFNJARL_COMPLETION && reply.number == 1);
    struct pifnjarl_completion completion = pifnjarl_completion(reply.completion);
    CHECK(completion.cid == 4 && completion.status == 0 && completion.dword0 == 8 && completion.dword1 == 8);
    CHECK(come_to(at_once, one_by_one, 3, 1) == PIFNJARL_IDLE && pifnjarl_lowest_run(at_once) == PIFNJARL_NO_RUN);
    pifnjarl_close(at_once);
    pifnjarl_close(one_by_one);
    at_once = with_run(image);
    one_by_one = with_run(image);
    CHECK(come_to(at_once, one_by_one, UINT32_MAX, 8) == PIFNJARL_COMPLETION);
    pifnjarl_close(at_once);
    pifnjarl_close(one_by_one);
}

/* An image that is saved opens again, and is saved as the same; each request for memory is refused in turn. */
static void images(void)
{
    static unsigned char image[1 << 20], again[1 << 20];
    size_t count = 0, second = 0;
    struct pifnjarl_device *other = NULL;
    CHECK(pifnjarl_save(device, NULL, 0, &count) == PIFNJARL_WRONG_SIZE);
    CHECK(pifnjarl_save(device, image, count - 1, &count) == PIFNJARL_WRONG_SIZE && image[0] == 0);
    CHECK(pifnjarl_save(device, image, sizeof image, &count) == PIFNJARL_DONE);
    CHECK(pifnjarl_open(image, count - 1, &other) == PIFNJARL_IMAGE_TRUNCATED && other == NULL);
    CHECK(pifnjarl_open(image, count + 1, &other) == PIFNJARL_IMAGE_TRAILING);
    CHECK(pifnjarl_open(output, count, &other) == PIFNJARL_IMAGE_MAGIC);
    CHECK(pifnjarl_open(NULL, 0, &other) == PIFNJARL_IMAGE_TRUNCATED && pifnjarl_open(NULL, 1, &other) == PIFNJARL_NULL_POINTER);
    enum pifnjarl_result opened = PIFNJARL_WANT_OF_MEMORY;
    for (long requests = 0; opened == PIFNJARL_WANT_OF_MEMORY; requests++) {
        requests_left = requests;
        opened = pifnjarl_open(image, count, &other);
        requests_left = -1;
        CHECK((opened == PIFNJARL_DONE) == (other != NULL));
    }
    CHECK(opened == PIFNJARL_DONE);
    requests_left = 0;
    CHECK(pifnjarl_save(other, again, sizeof again, &second) == PIFNJARL_WANT_OF_MEMORY);
    requests_left = -1;
    CHECK(pifnjarl_save(other, again, sizeof again, &second) == PIFNJARL_DONE && count == second && memcmp(image, again, count) == 0);
    pifnjarl_close(other);
}

/* A file of one byte, of which nobody may do anything but its owner; its descriptor. */
static int small_file(const char *path)
{
    int file = open(path, O_RDWR | O_CREAT | O_TRUNC, 0600);
    CHECK(file >= 0 && write(file, "x", 1) == 1);
    return file;
}

static int has_bytes(const char *path, off_t count)
{
    struct stat about;
    return stat(path, &about) == 0 && about.st_size == count;
}

/* What is no ordinary file, and has the name of the new file, stays, and nothing is saved. */
static void odd_files(const char *path, const char *unfinished)
{
    struct stat about;
    CHECK(mkfifo(unfinished, 0600) == 0);
    CHECK(pifnjarl_save_path(device, path) == PIFNJARL_CANNOT_WRITE && errno == EEXIST);
    CHECK(has_bytes(path, 1) && stat(unfinished, &about) == 0 && S_ISFIFO(about.st_mode) && unlink(unfinished) == 0);
    CHECK(symlink(path, unfinished) == 0);
    CHECK(pifnjarl_save_path(device, path) == PIFNJARL_CANNOT_WRITE && errno == EEXIST);
    CHECK(has_bytes(path, 1) && lstat(unfinished, &about) == 0 && S_ISLNK(about.st_mode) && unlink(unfinished) == 0);
    CHECK(mkdir(unfinished, 0700) == 0);
    CHECK(pifnjarl_save_path(device, path) == PIFNJARL_CANNOT_WRITE && errno == EEXIST);
    CHECK(has_bytes(path, 1) && rmdir(unfinished) == 0);
}

/* What is saved takes the place of a file with its permissions and its owner, also where a program that was killed left an unfinished one;
   that of a program that writes it stays. */
static void saving(const char *image)
{
    char path[4096], unfinished[4096];
    struct stat about;
    size_t count = 0;
    uid_t owner = geteuid() == 0 ? 12345 : geteuid();
    snprintf(path, sizeof path, "%s.saved", image);
    snprintf(unfinished, sizeof unfinished, "%s.saved.unfinished", image);
    CHECK(pifnjarl_save(device, NULL, 0, &count) == PIFNJARL_WRONG_SIZE);
    close(small_file(path));
    CHECK(chown(path, owner, (gid_t)-1) == 0 && chmod(path, 0640) == 0);
    int other = small_file(unfinished);
    CHECK(flock(other, LOCK_EX) == 0);
    CHECK(pifnjarl_save_path(device, path) == PIFNJARL_CANNOT_WRITE && errno == EBUSY);
    CHECK(has_bytes(path, 1) && has_bytes(unfinished, 1));
    close(other);
    CHECK(unlink(unfinished) == 0);
    odd_files(path, unfinished);
    close(small_file(unfinished));
    CHECK(pifnjarl_save_path(device, path) == PIFNJARL_DONE);
    CHECK(has_bytes(path, (off_t)count) && access(unfinished, F_OK) != 0);
    CHECK(stat(path, &about) == 0 && (about.st_mode & 07777) == 0640 && about.st_uid == owner);
    CHECK(pifnjarl_save_path(device, path) == PIFNJARL_DONE && has_bytes(path, (off_t)count));
    close(small_file(path));
    folders_fail = 1;
    CHECK(pifnjarl_save_path(device, path) == PIFNJARL_CANNOT_SYNC && errno == EIO && has_bytes(path, (off_t)count));
    folders_fail = 0;
    requests_left = 2;
    CHECK(pifnjarl_save_path(device, path) == PIFNJARL_WANT_OF_MEMORY);
    requests_left = -1;
    CHECK(strcmp(pifnjarl_words(PIFNJARL_CANNOT_SYNC), "cannot sync the folder") == 0);
}

int main(int count, char **words)
{
    if (count != 2 || pifnjarl_open_path("/nowhere/image", &device) != PIFNJARL_CANNOT_READ || device != NULL
        || pifnjarl_open_path(words[1], &device) != PIFNJARL_DONE)
        return 2;
    refusals();
    events();
    geometries();
    turns(words[1]);
    images();
    saving(words[1]);
    pifnjarl_close(device);
    printf("%u checks, %u failed\n", passed + failed, failed);
    return failed != 0;
}
