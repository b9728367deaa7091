/* Entries of commands, completions and reports, of which no program has to pack a byte: docs/device.md has their fields. All of it is
   inline: a program that only builds entries links nothing. */
#ifndef PIFNJARL_ENTRY_H
#define PIFNJARL_ENTRY_H

#include <stddef.h>
#include <stdint.h>

#ifdef __cplusplus
extern "C" {
#endif

/* That of `zscli --version`. */
#define PIFNJARL_VERSION_MAJOR 0
#define PIFNJARL_VERSION_MINOR 1
#define PIFNJARL_VERSION_PATCH 0
#define PIFNJARL_QUOTED(major, minor, patch) #major "." #minor "." #patch
#define PIFNJARL_EXPANDED(major, minor, patch) PIFNJARL_QUOTED(major, minor, patch)
#define PIFNJARL_VERSION PIFNJARL_EXPANDED(PIFNJARL_VERSION_MAJOR, PIFNJARL_VERSION_MINOR, PIFNJARL_VERSION_PATCH)

#define PIFNJARL_ENTRY_BYTES 64        /* a submission queue entry */
#define PIFNJARL_COMPLETION_BYTES 16   /* a completion queue entry */
#define PIFNJARL_TRANSFER_BYTES 131072 /* the most data of a command */
#define PIFNJARL_SCRATCH_BYTES 1024    /* the data of a Result */
#define PIFNJARL_DESCRIPTOR_BYTES 64   /* a zone in a report, and the header of a report */

/* ---- bytes, the lowest first */

static inline void pifnjarl_put(unsigned char *at, uint64_t number, int bytes)
{
    for (int i = 0; i < bytes; i++)
        at[i] = (unsigned char)(number >> 8 * i);
}

static inline uint64_t pifnjarl_get(const void *bytes, size_t at, int count)
{
    const unsigned char *from = (const unsigned char *)bytes + at;
    uint64_t number = 0;
    for (int i = 0; i < count; i++)
        number |= (uint64_t)from[i] << 8 * i;
    return number;
}

/* ---- entries: each function writes the PIFNJARL_ENTRY_BYTES of a command, and returns them, or NULL where a number doesn't fit its
   field, which pifnjarl_do refuses. `cid` is the command identifier, which the completion repeats. Numbers of blocks aren't zero-based. */

/* The dwords 10 to 15 of an entry; 10 and 11 are one number, and so are 14 and 15. */
static inline void *pifnjarl_entry(void *entry, uint8_t opcode, uint16_t cid, uint64_t dwords10_11, uint32_t dword12, uint32_t dword13,
                                   uint64_t dwords14_15)
{
    unsigned char *at = (unsigned char *)entry;
    pifnjarl_put(at, opcode, 2);
    pifnjarl_put(at + 2, cid, 2);
    pifnjarl_put(at + 4, 1, 4); /* the namespace */
    for (int reserved = 8; reserved < 40; reserved += 8)
        pifnjarl_put(at + reserved, 0, 8);
    pifnjarl_put(at + 40, dwords10_11, 8);
    pifnjarl_put(at + 48, dword12, 4);
    pifnjarl_put(at + 52, dword13, 4);
    pifnjarl_put(at + 56, dwords14_15, 8);
    return entry;
}

/* A command on 1 to 65536 blocks. */
static inline void *pifnjarl_entry_of_blocks(void *entry, uint8_t opcode, uint16_t cid, uint64_t lba, uint32_t blocks)
{
    return blocks < 1 || blocks > 65536 ? NULL : pifnjarl_entry(entry, opcode, cid, lba, blocks - 1, 0, 0);
}

/* Write: the data has the blocks. */
static inline void *pifnjarl_write(void *entry, uint16_t cid, uint64_t lba, uint32_t blocks)
{
    return pifnjarl_entry_of_blocks(entry, 0x01, cid, lba, blocks);
}

/* Read. */
static inline void *pifnjarl_read(void *entry, uint16_t cid, uint64_t lba, uint32_t blocks)
{
    return pifnjarl_entry_of_blocks(entry, 0x02, cid, lba, blocks);
}

/* Zone Append: the data has the blocks. A zone is its lowest LBA. The completion has the LBA of the first block. */
static inline void *pifnjarl_append(void *entry, uint16_t cid, uint64_t zone, uint32_t blocks)
{
    return pifnjarl_entry_of_blocks(entry, 0x7D, cid, zone, blocks);
}

enum pifnjarl_action {
    PIFNJARL_CLOSE_ZONE = 1,
    PIFNJARL_FINISH_ZONE = 2,
    PIFNJARL_OPEN_ZONE = 3,
    PIFNJARL_RESET_ZONE = 4,
    PIFNJARL_OFFLINE_ZONE = 5
};

/* Zone Management Send: an action on a zone. */
static inline void *pifnjarl_zone_send(void *entry, uint16_t cid, uint64_t zone, enum pifnjarl_action action)
{
    return pifnjarl_entry(entry, 0x79, cid, zone, 0, (uint32_t)action & 0xFF, 0);
}

/* Zone Management Send with Select All: an action on all zones that it takes. */
static inline void *pifnjarl_zone_send_all(void *entry, uint16_t cid, enum pifnjarl_action action)
{
    return pifnjarl_entry(entry, 0x79, cid, 0, 0, ((uint32_t)action & 0xFF) | 1 << 8, 0);
}

enum pifnjarl_report {
    PIFNJARL_REPORT_ALL = 0,
    PIFNJARL_REPORT_EMPTY = 1,
    PIFNJARL_REPORT_IMPLICITLY_OPENED = 2,
    PIFNJARL_REPORT_EXPLICITLY_OPENED = 3,
    PIFNJARL_REPORT_CLOSED = 4,
    PIFNJARL_REPORT_FULL = 5,
    PIFNJARL_REPORT_READ_ONLY = 6,
    PIFNJARL_REPORT_OFFLINE = 7
};

/* Zone Management Receive: the zones from the one with this LBA on, of one state or all, in a report of so many bytes, a multiple of 4.
   `partial` has the report's header count only the zones that fit. */
static inline void *pifnjarl_zone_receive(void *entry, uint16_t cid, uint64_t lba, uint32_t bytes, enum pifnjarl_report which, int partial)
{
    if (bytes < 4 || bytes % 4 != 0)
        return NULL;
    return pifnjarl_entry(entry, 0x7A, cid, lba, bytes / 4 - 1, ((uint32_t)which & 0xFF) << 8 | (partial ? 1u << 16 : 0), 0);
}

/* Load: the data has the program's bytes. For a block the program emits at most `emit` bytes, each record with two bytes of its length. */
static inline void *pifnjarl_load(void *entry, uint16_t cid, uint32_t slot, uint32_t emit, uint32_t program_bytes)
{
    return pifnjarl_entry(entry, 0xC1, cid, slot | (uint64_t)emit << 32, program_bytes, 0, 0);
}

/* Run: the program of a slot over blocks from an LBA on. What it emits is appended to a zone, `to`. */
static inline void *pifnjarl_run(void *entry, uint16_t cid, uint32_t slot, uint64_t lba, uint32_t blocks, uint32_t argument, uint64_t to)
{
    if (slot > 255 || blocks < 1 || blocks > 65536)
        return NULL;
    return pifnjarl_entry(entry, 0xC0, cid, lba, (blocks - 1) | slot << 16, argument, to);
}

/* Result: the PIFNJARL_SCRATCH_BYTES that the last run of the slot's program left. */
static inline void *pifnjarl_scratch(void *entry, uint16_t cid, uint32_t slot)
{
    return pifnjarl_entry(entry, 0xC2, cid, slot, 0, 0, 0);
}

/* ---- completions */

struct pifnjarl_completion {
    uint32_t dword0;
    uint32_t dword1;
    uint16_t queue;
    uint16_t cid;
    uint16_t status; /* of enum pifnjarl_status */
};

/* What the PIFNJARL_COMPLETION_BYTES of a completion say. */
static inline struct pifnjarl_completion pifnjarl_completion(const void *bytes)
{
    struct pifnjarl_completion completion;
    completion.dword0 = (uint32_t)pifnjarl_get(bytes, 0, 4);
    completion.dword1 = (uint32_t)pifnjarl_get(bytes, 4, 4);
    completion.queue = (uint16_t)pifnjarl_get(bytes, 10, 2);
    completion.cid = (uint16_t)pifnjarl_get(bytes, 12, 2);
    completion.status = (uint16_t)(pifnjarl_get(bytes, 14, 2) >> 1 & 0x7FF);
    return completion;
}

/* Of an append: the LBA of its first block. */
static inline uint64_t pifnjarl_lba(struct pifnjarl_completion completion)
{
    return completion.dword0 | (uint64_t)completion.dword1 << 32;
}

/* ---- statuses: the rows of docs/device.md#statuses, each a name here, the status code type, the status code, its name and its words */

#define PIFNJARL_STATUSES(row) \
    row(SUCCESSFUL_COMPLETION, 0x0, 0x00, "Successful Completion", "the command is done") \
    row(INVALID_COMMAND_OPCODE, 0x0, 0x01, "Invalid Command Opcode", "the opcode is none that is supported") \
    row(INVALID_FIELD_IN_COMMAND, 0x0, 0x02, "Invalid Field in Command", \
        "a field has a value that it may not have, or the data is not as long as the fields say") \
    row(INVALID_NAMESPACE_OR_FORMAT, 0x0, 0x0B, "Invalid Namespace or Format", "the namespace is not 1") \
    row(LBA_OUT_OF_RANGE, 0x0, 0x80, "LBA Out of Range", "a block that the entry names is not in the namespace") \
    row(ZONE_BOUNDARY_ERROR, 0x1, 0xB8, "Zone Boundary Error", \
        "a Read or the source of a Run passes its zone's end, or a write its zone's capacity") \
    row(ZONE_IS_FULL, 0x1, 0xB9, "Zone Is Full", "a write to a Full zone") \
    row(ZONE_IS_READ_ONLY, 0x1, 0xBA, "Zone Is Read Only", "a write to a Read Only zone") \
    row(ZONE_IS_OFFLINE, 0x1, 0xBB, "Zone Is Offline", "a Read of an Offline zone, a Run from one, or a write to one") \
    row(ZONE_INVALID_WRITE, 0x1, 0xBC, "Zone Invalid Write", "a Write that does not begin at the zone's write pointer") \
    row(TOO_MANY_ACTIVE_ZONES, 0x1, 0xBD, "Too Many Active Zones", "an active resource is wanted and none is free") \
    row(TOO_MANY_OPEN_ZONES, 0x1, 0xBE, "Too Many Open Zones", "more zones would be open than may be, and none gives way") \
    row(INVALID_ZONE_STATE_TRANSITION, 0x1, 0xBF, "Invalid Zone State Transition", "the zone's state does not allow the action") \
    row(ZONE_HELD, 0x7, 0xC0, "Zone Held", "an active run holds the zone against the command") \
    row(NO_SUCH_PROGRAM, 0x7, 0xC1, "No Such Program", "the slot has no program") \
    row(PROGRAM_REFUSED, 0x7, 0xC2, "Program Refused", "the bytes are no program, or it is not accepted") \
    row(NO_RUN_FREE, 0x7, 0xC3, "No Run Free", "as many runs are active as can be") \
    row(SOURCE_NOT_WRITTEN, 0x7, 0xC4, "Source Not Written", "not all of the blocks that the run is to read are written") \
    row(DESTINATION_NOT_OPEN, 0x7, 0xC5, "Destination Not Open", "the zone that the run is to append to is not open") \
    row(DESTINATION_LACKS_ROOM, 0x7, 0xC6, "Destination Lacks Room", \
        "the zone that the run is to append to has less room than the run may need") \
    row(WANT_OF_MEMORY, 0x7, 0xC7, "Want of Memory", "there is no memory for the program; nothing has changed") \
    row(SOURCE_IS_DESTINATION, 0x7, 0xC9, "Source Is Destination", "the run's source and its destination are one zone") \
    row(PROGRAM_IN_USE, 0x7, 0xCA, "Program in Use", "an active run uses the slot's program")

/* A status: its type in the bits from 8 on, and its code, as PIFNJARL_STATUS_ZONE_IS_FULL, which is 0x1B9. */
enum pifnjarl_status {
#define PIFNJARL_NUMBERED(name, type, code, title, words) PIFNJARL_STATUS_##name = (type) << 8 | (code),
    PIFNJARL_STATUSES(PIFNJARL_NUMBERED)
#undef PIFNJARL_NUMBERED
    PIFNJARL_STATUS_LIMIT = 0x800 /* a status is below this */
};

/* The standard's name of a status, or this device's: "Zone Is Full". */
static inline const char *pifnjarl_status_name(unsigned status)
{
    switch (status) {
#define PIFNJARL_NAMED(name, type, code, title, words) \
    case (type) << 8 | (code): return title;
        PIFNJARL_STATUSES(PIFNJARL_NAMED)
#undef PIFNJARL_NAMED
    }
    return "unknown status";
}

/* What a status says: "a write to a Full zone". */
static inline const char *pifnjarl_status_text(unsigned status)
{
    switch (status) {
#define PIFNJARL_WORDED(name, type, code, title, words) \
    case (type) << 8 | (code): return words;
        PIFNJARL_STATUSES(PIFNJARL_WORDED)
#undef PIFNJARL_WORDED
    }
    return "the device never gives this status";
}

/* ---- reports of zones */

enum pifnjarl_zone_state {
    PIFNJARL_ZONE_EMPTY = 0x1,
    PIFNJARL_ZONE_IMPLICITLY_OPENED = 0x2,
    PIFNJARL_ZONE_EXPLICITLY_OPENED = 0x3,
    PIFNJARL_ZONE_CLOSED = 0x4,
    PIFNJARL_ZONE_READ_ONLY = 0xD,
    PIFNJARL_ZONE_FULL = 0xE,
    PIFNJARL_ZONE_OFFLINE = 0xF
};

struct pifnjarl_zone {
    uint32_t state; /* of enum pifnjarl_zone_state */
    uint64_t capacity;
    uint64_t start;         /* its lowest LBA */
    uint64_t write_pointer; /* UINT64_MAX where nothing can be written: of Read Only, Full and Offline */
};

/* How many zones a report counts. Without `partial` more may be counted than have descriptors in it. */
static inline uint64_t pifnjarl_report_zones(const void *report)
{
    return pifnjarl_get(report, 0, 8);
}

/* The zone of a report's descriptor, from 0 on. The report has at least (descriptor + 2) * PIFNJARL_DESCRIPTOR_BYTES. */
static inline struct pifnjarl_zone pifnjarl_report_zone(const void *report, size_t descriptor)
{
    size_t at = (descriptor + 1) * PIFNJARL_DESCRIPTOR_BYTES;
    struct pifnjarl_zone zone;
    zone.state = (uint32_t)pifnjarl_get(report, at + 1, 1) >> 4;
    zone.capacity = pifnjarl_get(report, at + 8, 8);
    zone.start = pifnjarl_get(report, at + 16, 8);
    zone.write_pointer = pifnjarl_get(report, at + 24, 8);
    return zone;
}

/* ---- what a file begins with */

/* Who made a journal: the version of the device's meaning, and the profile by which its Load accepts programs. */
struct pifnjarl_maker {
    uint64_t version;
    uint64_t profile;
};

/* Who made the journal that begins with these bytes. One without a label is of version 1, with profile 2. */
static inline struct pifnjarl_maker pifnjarl_maker_of(const void *journal, size_t journal_bytes)
{
    struct pifnjarl_maker maker = {1, 2};
    if (journal_bytes < 25 || pifnjarl_get(journal, 8, 1) != 2)
        return maker;
    maker.version = pifnjarl_get(journal, 9, 8);
    maker.profile = pifnjarl_get(journal, 17, 8);
    return maker;
}

/* ---- geometry */

struct pifnjarl_geometry {
    uint32_t block_bytes;
    uint32_t zones;
    uint32_t zone_blocks;   /* the blocks of a zone: the LBAs of two zones that follow each other are so far apart */
    uint32_t zone_capacity; /* how many of them can be written */
    uint32_t most_open;     /* how many zones can be open at a time */
    uint32_t most_active;
};

/* The numbers of an image that a device was opened on, or of the image that a journal begins with. */
static inline struct pifnjarl_geometry pifnjarl_geometry_of(const void *image, size_t image_bytes)
{
    struct pifnjarl_geometry geometry = {0, 0, 0, 0, 0, 0};
    size_t at = 8; /* after ZNSIMG01 or ZNSIMG02 */
    if (image_bytes > 8 && pifnjarl_get(image, 3, 1) == 'J')
        at += pifnjarl_get(image, 8, 1) == 2 ? 34 : 17; /* after ZNSJRN01 a label, or none, and the image's length */
    if (image_bytes < at + 24)
        return geometry;
    geometry.block_bytes = (uint32_t)pifnjarl_get(image, at, 4);
    geometry.zones = (uint32_t)pifnjarl_get(image, at + 4, 4);
    geometry.zone_blocks = (uint32_t)pifnjarl_get(image, at + 8, 4);
    geometry.zone_capacity = (uint32_t)pifnjarl_get(image, at + 12, 4);
    geometry.most_open = (uint32_t)pifnjarl_get(image, at + 16, 4);
    geometry.most_active = (uint32_t)pifnjarl_get(image, at + 20, 4);
    return geometry;
}

#ifdef __cplusplus
}
#endif

#endif
