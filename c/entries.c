/* Prints what pifnjarl_entry.h makes: the examples of docs/device.md, the rows of its statuses, and the version. And checks what numbers
   that don't fit give, and how completions, reports, frames and geometries are read. */
#include "pifnjarl_device.h"
#include "pifnjarl_durable.h"

#include <stdio.h>
#include <string.h>

static unsigned failed;

static void check(int holds, const char *what)
{
    if (!holds) {
        failed++;
        printf("failed: %s\n", what);
    }
}

#define CHECK(holds) check(holds, #holds)

static unsigned char entry[PIFNJARL_ENTRY_BYTES];

/* An example of the page: two lines of eight groups, in the order of memory. */
static void show(const void *made)
{
    CHECK(made == entry);
    for (int i = 0; i < PIFNJARL_ENTRY_BYTES; i++)
        printf("%s%02x%s", i % 32 == 0 ? "    " : i % 4 == 0 ? " " : "", entry[i], i % 32 == 31 ? "\n" : "");
    memset(entry, 0xEE, sizeof entry);
}

/* In the order of the page. */
static void examples(void)
{
    show(pifnjarl_write(entry, 3, 10, 1));
    show(pifnjarl_read(entry, 2, 8, 1));
    show(pifnjarl_zone_send(entry, 3, 8, PIFNJARL_RESET_ZONE));
    show(pifnjarl_zone_receive(entry, 4, 0, 160, PIFNJARL_REPORT_ALL, 1));
    show(pifnjarl_append(entry, 1, 8, 1));
    show(pifnjarl_load(entry, 5, 0, 0, 16));
    show(pifnjarl_run(entry, 7, 0, 0, 3, 0, 8));
    show(pifnjarl_scratch(entry, 8, 0));
}

static void statuses(void)
{
#define SHOWN(name, type, code, title, words) \
    printf("| %Xh | %02Xh | %s | %s |\n", (unsigned)(type), (unsigned)(code), pifnjarl_status_name(PIFNJARL_STATUS_##name), \
           pifnjarl_status_text(PIFNJARL_STATUS_##name));
    PIFNJARL_STATUSES(SHOWN)
#undef SHOWN
    CHECK(strcmp(pifnjarl_status_name(0x7C8), "unknown status") == 0);
    CHECK(strcmp(pifnjarl_status_text(0xFFFF), "the device never gives this status") == 0);
}

/* A number that doesn't fit gives no entry, and leaves the bytes as they are. */
static void misfits(void)
{
    unsigned char before[PIFNJARL_ENTRY_BYTES], frame[PIFNJARL_FRAME_BYTES + PIFNJARL_ENTRY_BYTES + 1] = {0};
    memcpy(before, entry, sizeof before);
    CHECK(pifnjarl_write(entry, 1, 0, 0) == NULL && pifnjarl_read(entry, 1, 0, 65537) == NULL);
    CHECK(pifnjarl_append(entry, 1, 0, 0) == NULL && pifnjarl_run(entry, 1, 256, 0, 1, 0, 8) == NULL);
    CHECK(pifnjarl_run(entry, 1, 0, 0, 0, 0, 8) == NULL && pifnjarl_run(entry, 1, 0, 0, 65537, 0, 8) == NULL);
    CHECK(pifnjarl_zone_receive(entry, 1, 0, 0, PIFNJARL_REPORT_ALL, 0) == NULL);
    CHECK(pifnjarl_zone_receive(entry, 1, 0, 66, PIFNJARL_REPORT_ALL, 0) == NULL);
    CHECK(memcmp(before, entry, sizeof before) == 0);
    CHECK(pifnjarl_frame_submit(frame, 1, NULL, NULL, 0) == 0 && pifnjarl_frame_submit(frame, 1, entry, "", 131073) == 0 && frame[0] == 0);
}

static void completions(void)
{
    static const unsigned char bytes[] = {1, 2, 3, 4, 5, 6, 7, 8, 0, 0, 9, 10, 11, 12, 0x73, 0x03};
    struct pifnjarl_completion completion = pifnjarl_completion(bytes);
    CHECK(completion.dword0 == 0x04030201 && completion.dword1 == 0x08070605 && pifnjarl_lba(completion) == 0x0807060504030201);
    CHECK(completion.queue == 0x0A09 && completion.cid == 0x0C0B && completion.status == PIFNJARL_STATUS_ZONE_IS_FULL);
}

/* A turn of run 5 and a fault, as the page has them; and an answer in pieces. */
static void frames(void)
{
    unsigned char frame[PIFNJARL_FRAME_BYTES + PIFNJARL_ENTRY_BYTES + 3];
    unsigned char answer[PIFNJARL_FRAME_BYTES + PIFNJARL_COMPLETION_BYTES + 3] = {1};
    struct pifnjarl_answered answered;
    CHECK(pifnjarl_frame_turn(frame, 5) == 16 && frame[0] == 2 && frame[1] == 5 && frame[2] == 0 && frame[15] == 0);
    CHECK(pifnjarl_frame_fault(frame, 2, 1) == 16 && memcmp(frame, "\3\2\0\0\2\0\0\0\0\0\0\0\0\0\0", 16) == 0);
    CHECK(pifnjarl_frame_drain(frame, 258) == 16 && memcmp(frame, "\4\0\0\0\2\1\0\0\0\0\0\0\0\0\0", 16) == 0);
    CHECK(pifnjarl_frame_submit(frame, 258, pifnjarl_read(entry, 9, 1, 1), "abc", 3) == sizeof frame);
    CHECK(memcmp(frame, "\1\0\2\1\0\0\0\0\3\0\0\0\0\0\0", 16) == 0 && memcmp(frame + 16, entry, sizeof entry) == 0);
    CHECK(memcmp(frame + 80, "abc", 3) == 0);
    answer[8] = 3;
    memcpy(answer + 32, "xyz", 3);
    for (size_t count = 0; count < sizeof answer; count++)
        CHECK(pifnjarl_frame_read(answer, count, &answered) == 0);
    CHECK(pifnjarl_frame_read(answer, sizeof answer, &answered) == sizeof answer && answered.kind == PIFNJARL_ANSWER_COMPLETION);
    CHECK(answered.data_bytes == 3 && memcmp(answered.data, "xyz", 3) == 0 && answered.completion.status == 0);
    memcpy(answer, "\2\7\0\0\0\0\0\0\0\0\0\0\0\0\0", 16);
    CHECK(pifnjarl_frame_read(answer, 16, &answered) == 16 && answered.kind == PIFNJARL_ANSWER_PENDING && answered.run == 7);
}

static void geometries(void)
{
    unsigned char journal[25 + 24] = "ZNSJRN01\1", labelled[42 + 24] = "ZNSJRN01\2\3\0\0\0\0\0\0\0\4", image[32] = "ZNSIMG02";
    for (unsigned char i = 0; i < 6; i++)
        labelled[42 + 4 * i] = journal[25 + 4 * i] = image[8 + 4 * i] = (unsigned char)(i + 1);
    struct pifnjarl_geometry of_image = pifnjarl_geometry_of(image, sizeof image), none = pifnjarl_geometry_of(image, 31);
    struct pifnjarl_geometry of_journal = pifnjarl_geometry_of(journal, sizeof journal);
    struct pifnjarl_geometry of_labelled = pifnjarl_geometry_of(labelled, sizeof labelled);
    struct pifnjarl_maker first = pifnjarl_maker_of(journal, sizeof journal), third = pifnjarl_maker_of(labelled, sizeof labelled);
    CHECK(of_image.block_bytes == 1 && of_image.zones == 2 && of_image.zone_blocks == 3 && of_image.zone_capacity == 4);
    CHECK(of_image.most_open == 5 && of_image.most_active == 6 && memcmp(&of_image, &of_journal, sizeof of_image) == 0);
    CHECK(memcmp(&of_image, &of_labelled, sizeof of_image) == 0 && pifnjarl_geometry_of(labelled, 65).zones == 0);
    CHECK(first.version == 1 && first.profile == 2 && third.version == 3 && third.profile == 4);
    CHECK(none.block_bytes == 0 && pifnjarl_geometry_of(NULL, 0).zones == 0 && pifnjarl_geometry_of(journal, 48).zones == 0);
}

int main(void)
{
    examples();
    statuses();
    printf("zscli %s\n", PIFNJARL_VERSION);
    misfits();
    completions();
    frames();
    geometries();
    return failed != 0;
}
