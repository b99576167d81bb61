/*
 * cfu.h: the C interface of the proved CFU updater (crates crates/c_*). Two libraries libcfu serve it: the one of tools/library, for x86-64 Linux, proved down
 * to the source that it is compiled from, and the one of tools/c_library, for targets with a size_t of 32 or 64 bits, whose source is made from the proved one.
 *
 * The device end, the host end, the check of a bundle and its writing, and the building and reading of each packet of CFU, Microsoft's Component Firmware
 * Update protocol.
 * C99, also C++.
 *
 * Memory. The caller lends all of it: nothing is allocated, nothing is kept between calls, and there is no global state, so two threads may call at once with
 * buffers of their own. A lent buffer is a pointer and its length in bytes.
 *
 * What cannot be judged, and so is required of the caller:
 *   - a pointer is not null and is valid for the length that comes with it, also where that length is 0 (any object's address will do);
 *   - a buffer that is read holds initialised bytes, and nobody else writes a lent buffer during the call;
 *   - buffers that are lent to one call do not overlap, except that two buffers which are only read may; so never lend one memory as a report and the replies
 *     to it, or as a reply and the next packet;
 *   - a record, the staging buffer and the bundle are those that the call before left: an older copy of a record passes every check and cannot be distinguished
 *     from the right one. The contents of a checked bundle are lent with that very bundle, as the check or any later step over them left them.
 *
 * Everything else is judged. Each call ends, writes only inside the buffers that it may write (those without const), and returns a number:
 *   - CFU_SERVED, or
 *   - the number of a refusal. Refusals are rows of the updater's build document (docs/RULES.md restates them): a letter and a number, here the letter's
 *     ASCII code times 256 plus the number, so that D1 is 0x4401 ('D' is 0x44).
 *
 * A refusal leaves every record, the staging buffer, the list and the contents that are lent as they were, and every other field of a returned struct is 0,
 * except the entry that a B or W row names and the fields of a report with N1, which are those of the record as it is read. What it leaves in a buffer for
 * output is said at each call. The first row that applies is returned: C1, C2, C3, then the others in the order of their numbers, B rows before N1, and C4
 * last. C1 to C4 are this interface's own: with one of them nothing at all is changed. cfu_words.h has words for the numbers.
 *
 * CFU_SERVED says that the call was carried out, not that the peer agreed: REJECT, SKIP, BUSY and the errors of a block stand in the packets, and how a host
 * ended stands in its report.
 *
 * Packets are CFU's bytes alone, without a HID report id. Numbers in lent bytes are little-endian. Versions in lent bytes are four bytes: variant, minor (2),
 * major.
 */
#ifndef CFU_H
#define CFU_H

#include <stddef.h>
#include <stdint.h>

/* A bundle can have 65,536 bytes, which a size_t of 16 bits does not count. */
#if defined(SIZE_MAX) && SIZE_MAX < 0xFFFFFFFF
#error "libcfu has a size_t of 32 bits or more"
#endif

#ifdef __cplusplus
extern "C" {
#endif

/* ---- The version of this interface ---- */

/* The major counts changes that a program must follow, the minor what was only added. */
#define CFU_INTERFACE_MAJOR 3
#define CFU_INTERFACE_MINOR 0

/* What a program that was written for major 2 has to follow:
 *   - a component has a floor, the lowest version that it takes: cfu_listed and cfu_component have a field for it, so compile anew. An offer below it gets
 *     CFU_REJECT_OLD_FW, an image CFU_ERROR_VERSION. A floor of zero is none: with a zeroed list that cfu_list_put fills with floors of zero a device answers
 *     as before;
 *   - the list and the device's record are longer: the list has 119 bytes in place of 91, of which a component takes 17 in place of 13; the record has 228 in
 *     place of 200, of which a component takes 22 in place of 18, with what is staged at 17 in place of 13. Lend buffers of CFU_LIST_SIZE and CFU_DEVICE_SIZE
 *     bytes. A record that older code left is refused by C1, as is any buffer of its length; its bytes in a longer buffer are another record, which need not be
 *     refused. Reset a kept device with the older code, so that what is staged runs, and set it up anew with this one.
 * A program that was written for major 1 also this:
 *   - a device's record has 228 bytes in place of 140, with its components at 74 in place of 14, a host's record 25 in place of 24: lend CFU_HOST_SIZE bytes
 *     too. Let the update of a kept host end with the older code, or begin again with cfu_host_fresh: its first packet, code 0, closes the session;
 *   - a step of the host that has nothing to send need not be its end: see cfu_host_step. */

/* ---- Versions of firmware ---- */

/* A version as its 32-bit number, which its four lent bytes are; and the least version of a need, without the variant, as cfu_offer.least has it. The parts are
 * not judged: a minor is under 65,536, the others are under 256. */
#define CFU_VERSION(major, minor, variant) ((uint32_t)(major) << 24 | (uint32_t)(minor) << 8 | (uint32_t)(variant))
#define CFU_VERSION_MAJOR(number) ((uint8_t)((number) >> 24))
#define CFU_VERSION_MINOR(number) ((uint16_t)((number) >> 8))
#define CFU_VERSION_VARIANT(number) ((uint8_t)(number))
#define CFU_LEAST(major, minor) ((uint32_t)(major) << 16 | (uint32_t)(minor))
#define CFU_LEAST_MAJOR(least) ((uint8_t)((least) >> 16))
#define CFU_LEAST_MINOR(least) ((uint16_t)(least))

/* ---- Sizes of lent buffers, in bytes ---- */

#define CFU_DEVICE_SIZE 228     /* a device's record */
#define CFU_LIST_SIZE 119       /* the list that set-up takes: CFU_COMPONENT_LIMIT times 17 */
#define CFU_HOST_SIZE 25        /* a host's record */
#define CFU_CONTENTS_SIZE 103   /* what the check of a bundle answers, with the host's cursor */
#define CFU_REPLIES_SIZE 32     /* up to two replies of the device */
#define CFU_SHORT_SIZE 16       /* offer, information, extended, and both replies */
#define CFU_LONG_SIZE 60        /* content, version reply */
#define CFU_DATA_AT 8           /* where the data of a content packet stand */
#define CFU_DATA_SIZE 52        /* the data of a content packet */
#define CFU_COMPONENTS_SIZE 49  /* the components of a version reply: CFU_COMPONENT_LIMIT times 7 */

/* ---- Places in lent bytes, and the sizes of parts that stand there several times ---- */

/* A device's record: its session, the ready-reply and the previous packet in it, the components. A component: its running version, its region (base, then
 * length), its floor, whether a version is staged (then that version). A component of set-up's list: what stands before that. */
#define CFU_DEVICE_SESSION_AT 7
#define CFU_DEVICE_OWED_AT 12
#define CFU_DEVICE_PREVIOUS_AT 14
#define CFU_DEVICE_COMPONENTS_AT 74
#define CFU_COMPONENT_SIZE 22
#define CFU_COMPONENT_RUNNING_AT 1
#define CFU_COMPONENT_REGION_AT 5
#define CFU_COMPONENT_FLOOR_AT 13
#define CFU_COMPONENT_STAGED_AT 17
#define CFU_LISTED_SIZE 17

/* A component of a version reply as it is lent: its running version, its id, the platform. */
#define CFU_RUNNING_SIZE 7
#define CFU_RUNNING_ID_AT 4

/* A bundle: what stands before the table, and an entry of it, which begins with the offer. */
#define CFU_BUNDLE_HEAD_SIZE 8
#define CFU_BUNDLE_ENTRY_SIZE 24

/* The contents of a checked bundle: the bodies, the block that the cursor is kept for, the cursor. A body: how many records it has. */
#define CFU_CONTENTS_BODIES_AT 3
#define CFU_BODY_SIZE 12
#define CFU_BODY_RECORDS_AT 8
#define CFU_CONTENTS_HAND_AT 87
#define CFU_CONTENTS_CURSOR_AT 95

/* A host's record: the stage and its two numbers, the mask, the two flags of the pass, and the flag of a reply that was passed over. */
#define CFU_HOST_STAGE_AT 1
#define CFU_HOST_FIRST_AT 2
#define CFU_HOST_SECOND_AT 6
#define CFU_HOST_MASK_AT 10
#define CFU_HOST_SKIPPED_AT 22
#define CFU_HOST_LANDED_AT 23
#define CFU_HOST_PASSED_AT 24

/* ---- Limits ---- */

/* The largest staging buffer and the largest bundle, the most components and the most offers, the smallest region, the highest id of a component. */
#define CFU_STAGING_LIMIT 65536
#define CFU_BUNDLE_LIMIT 65536
#define CFU_COMPONENT_LIMIT 7
#define CFU_OFFER_LIMIT 7
#define CFU_REGION_LEAST 8
#define CFU_ID_LIMIT 0xDF

/* ---- Numbers that a call answers ---- */

#define CFU_SERVED 0

/* A lent buffer is not of its size, or has not the place that is asked for. C1: a record or contents; also contents with a row over that of CFU_B8, or with no
 * row and a count of offers that is not 1 to CFU_OFFER_LIMIT. C2: a list or data that is read. C3: a buffer for what comes out. C4: a place that the list, the
 * device or the bundle does not have. */
#define CFU_C1 0x4301
#define CFU_C2 0x4302
#define CFU_C3 0x4303
#define CFU_C4 0x4304

/* Set-up: staging over 65,536 bytes; a count not 1 to CFU_COMPONENT_LIMIT; an id outside 1 to 0xDF or repeated; a region under 8 bytes, past the buffer or over
 * another; a floor with a variant other than 0, since it counts by major and minor. */
#define CFU_S1 0x5301
#define CFU_S2 0x5302
#define CFU_S3 0x5303
#define CFU_S4 0x5304
#define CFU_S5 0x5305

/* Device. D1: a stage, an owed or a staged that no record has; a record that breaks S1 to S5, opens a session on a component that is not listed or is pending,
 * receives while the sequence of its previous packet is not just before the next one (65,535 is just before 0), owes a ready-reply while idle, or has a staged
 * version whose variant is not the running one or whose major and minor are lower than the running ones or than the floor's. D2: another staging length than
 * at set-up. D3: a report of another length than 16 (offer channel) or 60 (content channel). */
#define CFU_D1 0x4401
#define CFU_D2 0x4402
#define CFU_D3 0x4403

/* Packets. P1, reading: another length than the packet's. P2, building: an offer with an id over 0xFD, a least version of 2^24 or more, a protocol over 15,
 * or I or V over 1; content with a flag other than the two or a length not 1 to 52; a version reply, also when read, with a count over CFU_COMPONENT_LIMIT or
 * a protocol other than 2. */
#define CFU_P1 0x5001
#define CFU_P2 0x5002

/* Host. N1: a stage, an end or a flag that no record has; a record that points at an entry or a body's record that the bundle lacks, counts over 8 BUSY, more
 * passes than offers or 2^31 packets or more, or has a mask bit past its offers. */
#define CFU_N1 0x4E01

/* Bundle. B1: under 8 or over 65,536 bytes. B2: byte 1 not 1, or bytes 2 to 7 not zero. B3: a count not 1 to CFU_OFFER_LIMIT. B4: a table past the end. B5: an
 * offer whose bytes 0, 1, 3 or 13 are not zero, whose byte 12 is not 2 or whose id is outside 1 to 0xDF. B6: an id that an earlier entry has. B7: a body that
 * does not start where the table or the body before ends, or a last one that does not end with the file. B8: an empty body, a cut record, or a record of length
 * 0 or over 52. */
#define CFU_B1 0x4201
#define CFU_B2 0x4202
#define CFU_B3 0x4203
#define CFU_B4 0x4204
#define CFU_B5 0x4205
#define CFU_B6 0x4206
#define CFU_B7 0x4207
#define CFU_B8 0x4208

/* Writer. W1: a list that is not 1 to CFU_OFFER_LIMIT whole entries. W2: an offer that B5 refuses. W3: an id that an earlier entry has. W4: an image under
 * CFU_REGION_LEAST or over CFU_STAGING_LIMIT bytes, or one that ends past the images. W5: an image whose CRC is wrong. W6: an image that bears another version
 * or another id than its offer. W7: a bundle over CFU_BUNDLE_LIMIT bytes. W8: an output too short for the bundle. */
#define CFU_W1 0x5701
#define CFU_W2 0x5702
#define CFU_W3 0x5703
#define CFU_W4 0x5704
#define CFU_W5 0x5705
#define CFU_W6 0x5706
#define CFU_W7 0x5707
#define CFU_W8 0x5708

/* ---- How far a host is (cfu_report.ending) ---- */

#define CFU_RUNNING 0
#define CFU_DONE 1    /* the host came to its end; cfu_report.completed says how many offers the device took, which may be none */
#define CFU_H1 0x4801 /* a content status other than 0; cfu_report.status has it */
#define CFU_H2 0x4802 /* a reply that is not 16 bytes, or whose token or sequence is not the one awaited, and that cfu_host_step does not pass over */
#define CFU_H3 0x4803 /* a reply that the table of steps has no step for */
#define CFU_H4 0x4804 /* a ninth BUSY for one offer in one pass */

/* ---- Codes in packets ---- */

#define CFU_PROTOCOL 2

/* cfu_offer_packet.kind */
#define CFU_KIND_NONE 0
#define CFU_KIND_OFFER 1
#define CFU_KIND_INFORMATION 2
#define CFU_KIND_EXTENDED 3

/* Codes of information and extended packets. */
#define CFU_INFO_START_ENTIRE_TRANSACTION 0
#define CFU_INFO_START_OFFER_LIST 1
#define CFU_INFO_END_OFFER_LIST 2
#define CFU_NOTIFY_ON_READY 1

/* Status of an offer reply, and the reasons of a REJECT. */
#define CFU_OFFER_SKIP 0
#define CFU_OFFER_ACCEPT 1
#define CFU_OFFER_REJECT 2
#define CFU_OFFER_BUSY 3
#define CFU_OFFER_READY 4
#define CFU_OFFER_UNSUPPORTED 0xFF
#define CFU_REJECT_OLD_FW 0 /* the offered major and minor are not greater than the running ones, or are lower than the floor's */
#define CFU_REJECT_INV_COMPONENT 1
#define CFU_REJECT_SWAP_PENDING 2
#define CFU_REJECT_WRONG_PROTOCOL 0xE0
#define CFU_REJECT_WRONG_SEGMENT 0xE1
#define CFU_REJECT_WRONG_VARIANT 0xE2 /* the offered variant, the kind of build, is not the running one; tested before CFU_REJECT_OLD_FW */

/* Flags of a content packet, and the status in its reply (not what a call returns). */
#define CFU_FLAG_FIRST_BLOCK 0x80
#define CFU_FLAG_LAST_BLOCK 0x40
#define CFU_SUCCESS 0
#define CFU_ERROR_VERIFY 0x04
#define CFU_ERROR_CRC 0x05
#define CFU_ERROR_VERSION 0x07 /* the image's variant is not the running one, or its major and minor are lower than the running ones or than the floor's */
#define CFU_ERROR_INVALID_ADDR 0x09
#define CFU_ERROR_NO_OFFER 0x0A
#define CFU_ERROR_INVALID 0x0B /* also a block that comes again, unless it is a copy that cfu_device_content answers with CFU_SUCCESS */

/* ---- Numbers that cross together ---- */

typedef struct cfu_version {
    uint8_t major;
    uint16_t minor;
    uint8_t variant;
} cfu_version;

typedef struct cfu_offer {
    uint8_t segment;
    uint8_t force_immediate_reset; /* CFU's I: 0 or 1 */
    uint8_t force_ignore_version;  /* CFU's V: 0 or 1 */
    uint8_t id;
    uint8_t token;
    cfu_version version;
    uint8_t need;   /* the needed component, 0 for none */
    uint32_t least; /* its least version without the variant, 24 bits: major times 65,536 plus minor */
    uint8_t protocol;
    uint16_t platform;
} cfu_offer;

typedef struct cfu_signal {
    uint8_t code;
    uint8_t token;
} cfu_signal;

/* A packet of the offer channel; what is not of its kind is zero. */
typedef struct cfu_offer_packet {
    uint32_t number;
    uint32_t kind;
    cfu_offer offer;
    cfu_signal signal;
} cfu_offer_packet;

typedef struct cfu_offer_reply {
    uint32_t number;
    uint8_t token;
    uint8_t reason;
    uint8_t status;
} cfu_offer_reply;

/* flags and length are as they stand in the packet, unjudged: length may be up to 255, while there are CFU_DATA_SIZE bytes of data. */
typedef struct cfu_content {
    uint32_t number;
    uint8_t flags;
    uint8_t length;
    uint16_t sequence;
    uint32_t address;
} cfu_content;

typedef struct cfu_content_reply {
    uint32_t number;
    uint16_t sequence;
    uint8_t status;
} cfu_content_reply;

typedef struct cfu_version_reply {
    uint32_t number;
    uint8_t count;
    uint8_t protocol;
} cfu_version_reply;

typedef struct cfu_replies {
    uint32_t number;
    uint32_t count; /* how many replies to send, in order: 0, 1 or 2 */
} cfu_replies;

typedef struct cfu_check {
    uint32_t number;
    uint32_t entry; /* the entry that the row names, counted from 1; 0 for the bundle as a whole */
    uint32_t count; /* how many offers an accepted bundle has */
} cfu_check;

typedef struct cfu_written {
    uint32_t number;
    uint32_t entry;  /* the entry that the row names, counted from 1; 0 for W1, W7 and W8 */
    uint32_t length; /* how many bytes of the output are the bundle */
} cfu_written;

typedef struct cfu_step {
    uint32_t number;
    uint32_t entry;  /* the entry that a bundle's row names */
    uint32_t length; /* how many bytes of the packet to send: 16 (offer channel), 60 (content channel), or 0, which need not be the end */
} cfu_step;

typedef struct cfu_report {
    uint32_t number;
    uint32_t completed; /* how many offers were completed */
    uint32_t mask;      /* which: bit i for entry i, counted from 0 */
    uint32_t packets; /* how many the host made; what a bus delivers twice counts once */
    uint32_t passes;
    uint32_t ending;
    uint32_t status; /* the content status of H1, otherwise 0 */
} cfu_report;

/* A component of the list that set-up takes: id, running version, the region's base and length, and the floor, the lowest version that the component takes,
 * which may stand above the running one. It counts by major and minor, so its variant must be 0 (S5); zero is no floor. */
typedef struct cfu_listed {
    uint8_t id;
    cfu_version running;
    uint32_t base;
    uint32_t length;
    cfu_version floor;
} cfu_listed;

typedef struct cfu_component {
    uint32_t number;
    uint8_t id;
    cfu_version running;
    uint32_t base;
    uint32_t length;
    cfu_version floor;  /* as set-up took it */
    uint8_t pending;    /* 1 where a version is staged, which a reset makes the running one, otherwise 0 */
    cfu_version staged; /* that version, zero where none is staged */
} cfu_component;

typedef struct cfu_entry {
    uint32_t number;
    uint32_t entry; /* the entry that a bundle's row names */
    uint32_t offset;
    uint32_t length; /* of the body, which stands at that offset in the bundle */
    uint32_t records;
} cfu_entry;

/*
 * ---- The device ----
 *
 * A device's record, CFU_DEVICE_SIZE bytes:
 *     0  platform (2)
 *     2  staging length at set-up (4)
 *     6  count of components (1)
 *     7  stage (1): 0 idle, 1 offered, 2 receiving
 *     8  slot (1): the component's place in the list, from 0; 9 token (1), 10 next sequence (2)
 *    12  owed ready-reply (1): 0 none, 1 owed; 13 its token (1)
 *    14  previous packet (CFU_LONG_SIZE): while receiving, the content packet of the block that was taken last
 *    74  CFU_COMPONENT_LIMIT times 22 bytes: id (1), running version (4), region base (4), region length (4), floor (4), staged (1): 0 nothing, 1 pending;
 *        staged version (4)
 * Only these calls need to write one, and cfu_device_component reads a component. Fields that the stage does not have, the token where none is owed and the
 * staged version where nothing is staged are not looked at, whatever stands there; a call that writes the session or the component writes zero there. The
 * previous packet alone stays as it is, looked at or not, until a block is taken, which writes its packet there, or the session begins or ends or code 0 comes,
 * which write zeros; D1 looks at its sequence alone. A served offer call writes the session anew, a served content call the session and the component that it
 * was on (the first while it was idle), set-up and a reset the whole record; so a packet that changes nothing of the record may still put zeros for bytes that
 * are not looked at. Bytes with another stage, owed or staged than these are refused by D1, in the components that are not in use too, and so is a record that
 * breaks the rules of a device. All zeros are such: zero a record before set-up, and a refused set-up leaves one that no call serves.
 */

/*
 * Puts a component into the list that set-up takes, at a place counted from 0; the other places stay. Zero the list first. Nothing of the component is judged
 * here: set-up does that. Returns CFU_SERVED, C2 (list) or C4 (a place that is not under CFU_COMPONENT_LIMIT).
 */
uint32_t cfu_list_put(uint8_t *list, size_t list_len, uint32_t place, cfu_listed component);

/*
 * Makes the record of a device that is idle, with nothing staged and nothing owed. list: CFU_COMPONENT_LIMIT times id (1), running version (4), region base
 * (4), region length (4), floor (4), CFU_LIST_SIZE bytes, of which the first `count` are used; all are copied into the record. Of the staging buffer, plain
 * memory, only the length counts, which later calls must lend again. Returns CFU_SERVED, C1 (device), C2 (list) or S1 to S5. A refusal leaves the record as it
 * was. No call but this one changes a floor: to raise one, reset the device and set it
 * up anew.
 */
uint32_t cfu_device_set_up(uint8_t *device, size_t device_len, uint16_t platform, const uint8_t *list, size_t list_len, uint8_t count,
                           const uint8_t *staging, size_t staging_len);

/*
 * The component at a place of the list that set-up took, counted from 0: what runs, its region, its floor, and the version that is staged. Returns CFU_SERVED,
 * C1 (device), D1, or C4 (a place that is not under the count of components).
 */
cfu_component cfu_device_component(const uint8_t *device, size_t device_len, uint32_t place);

/*
 * Writes the version reply, CFU_LONG_SIZE bytes. Returns CFU_SERVED, C1 (device), C3 (packet), or D1 with the packet zeroed.
 */
uint32_t cfu_device_version_reply(const uint8_t *device, size_t device_len, uint8_t *packet, size_t packet_len);

/*
 * Judges a report of the offer channel (offer, information, extended) and writes the reply, if one is due, into the first 16 of CFU_REPLIES_SIZE bytes, with
 * zeros after it. Returns CFU_SERVED with the count of replies, 0 (to a notify on ready whose READY is now owed) or 1; C1 (device), C3 (replies); D1, D2 or D3
 * with the replies zeroed and none due.
 */
cfu_replies cfu_device_offer(uint8_t *device, size_t device_len, const uint8_t *staging, size_t staging_len, const uint8_t *report, size_t report_len,
                             uint8_t *replies, size_t replies_len);

/*
 * Judges a report of the content channel: erases and writes in the staging buffer as the protocol says, and writes one or two replies: the reply to the
 * block, for the content channel, and after it, where a ready-reply was owed and the session is now idle, the READY, for the offer channel. Returns as
 * cfu_device_offer does, with a count of 1 or 2; a refusal leaves the staging buffer as it was.
 *
 * Some hubs deliver a packet twice. While receiving, a copy of the packet that was taken last, all of its 60 bytes, also those behind its data, is answered
 * with CFU_SUCCESS, and nothing changes, however often it comes. Any other repeat gets an error and changes nothing either: one with a byte that differs, or of
 * the first block, CFU_ERROR_INVALID, and one of the last block, whose session is over, CFU_ERROR_NO_OFFER.
 */
cfu_replies cfu_device_content(uint8_t *device, size_t device_len, uint8_t *staging, size_t staging_len, const uint8_t *report, size_t report_len,
                               uint8_t *replies, size_t replies_len);

/*
 * The device was reset: in the record staged versions run, nothing is pending or owed, the session is idle, and the floors are as they were. The caller
 * installs the images before this call. Returns CFU_SERVED, C1 (device) or D1. A record that older code left is refused by C1, here too: reset before firmware
 * with this code is installed.
 */
uint32_t cfu_device_reset(uint8_t *device, size_t device_len);

/*
 * ---- The bundle ----
 *
 * The contents of a checked bundle, CFU_CONTENTS_SIZE bytes:
 *     0  row (1): 1 to 8 for B1 to B8, 0 where none refuses the bundle; 1 the entry that it names (1)
 *     2  count of offers (1), 0 where a row refuses
 *     3  CFU_OFFER_LIMIT times 12 bytes: body offset (4), body length (4), records (4); zero past the count
 *    87  the block that the cursor is kept for: its entry (4), and 91 its number in the body (4), both counted from 0; all ones where there is none
 *    95  the host's cursor (8): the offset in the bundle of the record after that block's
 * Only these calls need to write them. Contents of another size, of another row, or of no offer or more than CFU_OFFER_LIMIT where no row refuses, are refused
 * by C1: all zeros are such.
 */

/*
 * Checks a bundle, and writes what it found, with no block and the cursor at 0. Returns CFU_SERVED with the count of offers, C3 (contents), or B1 to B8 with
 * the entry, which the contents keep. The offer of entry i, counted from 0, is the 16 bytes of the bundle at 8 + 24 i, for cfu_read_offer.
 */
cfu_check cfu_bundle_check(const uint8_t *bundle, size_t bundle_len, uint8_t *contents, size_t contents_len);

/*
 * The entry at a place of a checked bundle, counted from 0: where its body stands and how many records it has. Returns CFU_SERVED, C1 (contents), the B row
 * that the contents keep with its entry, or C4 (a place that is not under the count of offers). Required of the caller, as for cfu_host_step_checked: the
 * contents are those that a check left. Of others only what stands there is told, which may lie outside of the bundle.
 */
cfu_entry cfu_contents_entry(const uint8_t *contents, size_t contents_len, uint32_t place);

/*
 * Writes a bundle that the check accepts. list: for each offer, in the order of the bundle, CFU_BUNDLE_ENTRY_SIZE bytes: the offer (16), at 16 where its image
 * starts in `images` (4), at 20 how long it is (4). The offer is as cfu_build_offer leaves it, with segment, I, V and token 0, protocol 2 and an id from 1 to
 * CFU_ID_LIMIT. An image is a whole region: bytes 0 to 3 its version, byte 4 its id, the last two bytes the CRC of all before them, high byte first. Returns
 * CFU_SERVED with the bundle's length: the bundle is at the start of `out`, and every byte of `out` past it is as it was. Or returns the first of W1 to W8 that
 * applies, each tried over the whole list before the next, with the entry that it names, and `out` is as it was; never C1 to C4. Of an image the two CRC bytes
 * are always the last record; of the bytes before them each longest run of 52 or more bytes 0xFF is left out, since an erase restores it, and what is left is
 * cut at 52 bytes in rising address, anew after each run that is left out. An output of CFU_BUNDLE_LIMIT bytes is never too short.
 */
cfu_written cfu_bundle_write(const uint8_t *list, size_t list_len, const uint8_t *images, size_t images_len, uint8_t *out, size_t out_len);

/*
 * ---- The host ----
 *
 * A host's record, CFU_HOST_SIZE bytes:
 *     0  token (1)
 *     1  stage (1): 0 fresh, 1 opening, 2 listing, 3 offering, 4 waiting, 5 sending, 6 closing, 7 ended
 *     2  (4) and 6 (4): entry and its BUSY replies where it offers or waits; entry and block where it sends, both counted from 0; where it ended the end (0
 *        done, 1 to 4 for H1 to H4) and the content status of H1, of which the low byte is read; what the stage does not use is written as zero and not read
 *    10  mask of completed offers (4), 14 packets (4), 18 passes (4)
 *    22  this pass had a SKIP (1), 23 a completed image (1): 0 or 1
 *    24  a reply was passed over since the block in hand was sent (1): 0 or 1, looked at where the host sends and written as zero elsewhere
 * Only these calls need to write one. A stage over 7, an end over 4 and a byte 22, 23 or 24 over 1, whatever the stage, are refused by N1, as is a record that
 * does not fit the bundle. All zeros are the fresh record with token 0.
 */

/*
 * Makes the record of a host that has sent nothing. Returns CFU_SERVED or C1 (host). Where a bus may deliver packets twice take a token other than 0: the reply
 * to a last block that comes a second time, read as one to the next offer, is a SKIP for token 0.
 */
uint32_t cfu_host_fresh(uint8_t *host, size_t host_len, uint8_t token);

/*
 * One step: takes the reply to the packet before and writes the next packet into CFU_LONG_SIZE bytes, with zeros after it. At the first step none is
 * awaited, and the reply, which may be of length 0, is not looked at. Step again only once a reply has come: to notify on ready (extended, code 1) the device
 * may send it much later. Returns CFU_SERVED with the length to send; C1 (host), C3 (packet); B1 to B8 with the entry; or N1. A B row or N1 leaves the packet
 * zeroed. Each step checks the whole bundle: for a session of many packets take cfu_host_step_checked.
 *
 * CFU_SERVED with a length of 0 means that there is nothing to send, for one of two reasons, which cfu_host_report(host).ending tells apart:
 *   - CFU_RUNNING: the reply was passed over. A bus that delivers a block twice also brings two replies to it; where a block that is not the first of its body
 *     is awaiting its reply, and what comes is the reply to the block before once more (its sequence, CFU_SUCCESS), the host takes no notice of it and counts
 *     nothing. Send nothing, wait for the next reply, and step with that one. Never step with the same reply again: one is passed over for each block, and a
 *     second ends the host with H2;
 *   - any other: the host has ended, well or not, and each further step answers 0 again.
 * A loop that stops at the first 0 breaks off an update where a block came twice.
 */
cfu_step cfu_host_step(uint8_t *host, size_t host_len, const uint8_t *bundle, size_t bundle_len, const uint8_t *reply, size_t reply_len, uint8_t *packet,
                       size_t packet_len);

/*
 * The same step over the contents that cfu_bundle_check wrote for this very bundle, which is not checked again. Required of the caller: the bundle is the one
 * that was checked, unchanged, and the contents are as that check, or any later step over them, left them. Then the call returns what cfu_host_step does,
 * and leaves the same record and packet, from any record and for any reply, also where the check refused the bundle. The contents keep the cursor of the block
 * that was sent last: a step on from that block takes a time that does not grow with the bundle, and one from another block walks over the records before it.
 * Returns as cfu_host_step does; C1 is for host and contents. Of contents that were not left for this bundle only this is sure: nothing outside of the bundle
 * is read, and the packets may be wrong.
 */
cfu_step cfu_host_step_checked(uint8_t *host, size_t host_len, uint8_t *contents, size_t contents_len, const uint8_t *bundle, size_t bundle_len,
                               const uint8_t *reply, size_t reply_len, uint8_t *packet, size_t packet_len);

/*
 * How far a host is. Returns CFU_SERVED, C1 (host) with zeros, or N1 for a record that counts 2^31 packets or more or has a stage, an end or a flag that
 * no record has; the other clauses of N1 are judged by the steps and not here. With such a stage, end or flag the bytes are read as a running host of
 * 4,294,967,295 packets, whose other counts are zero.
 */
cfu_report cfu_host_report(const uint8_t *host, size_t host_len);

/*
 * ---- Packets ----
 *
 * Building writes a packet of CFU_LONG_SIZE bytes (version reply, content) or CFU_SHORT_SIZE bytes (all others) and returns CFU_SERVED, C2, C3, or P2 with the
 * packet zeroed. Information, extended and the two replies hold any value of their fields and are never refused by P2. What is built reads back to the same
 * fields, unused data and components past the count as zero. The components of a version reply, CFU_COMPONENTS_SIZE bytes: CFU_COMPONENT_LIMIT times running
 * version (4), id (1), platform (2).
 */

uint32_t cfu_build_version_reply(uint8_t count, uint8_t protocol, const uint8_t *components, size_t components_len, uint8_t *packet, size_t packet_len);

uint32_t cfu_build_offer(cfu_offer offer, uint8_t *packet, size_t packet_len);

uint32_t cfu_build_information(uint8_t code, uint8_t token, uint8_t *packet, size_t packet_len);

uint32_t cfu_build_extended(uint8_t code, uint8_t token, uint8_t *packet, size_t packet_len);

uint32_t cfu_build_offer_reply(uint8_t token, uint8_t reason, uint8_t status, uint8_t *packet, size_t packet_len);

/* bytes: CFU_DATA_SIZE of data, of which the first `length` are sent. */
uint32_t cfu_build_content(uint8_t flags, uint8_t length, uint16_t sequence, uint32_t address, const uint8_t *bytes, size_t bytes_len, uint8_t *packet,
                           size_t packet_len);

uint32_t cfu_build_content_reply(uint16_t sequence, uint8_t status, uint8_t *packet, size_t packet_len);

/*
 * Reading returns the fields, or C3 (where there is a buffer for output) or P1 (of a version reply also P2) with all fields zero. A packet of any length may
 * be lent; another than its own is P1.
 */

/* components: CFU_COMPONENTS_SIZE bytes, zero past the count; zeroed by P1 and P2. */
cfu_version_reply cfu_read_version_reply(const uint8_t *packet, size_t packet_len, uint8_t *components, size_t components_len);

/* Offer, information or extended, by byte 2. */
cfu_offer_packet cfu_read_offer(const uint8_t *packet, size_t packet_len);

cfu_offer_reply cfu_read_offer_reply(const uint8_t *packet, size_t packet_len);

/* bytes: CFU_DATA_SIZE of data, zero past the packet's length field; zeroed by P1. */
cfu_content cfu_read_content(const uint8_t *packet, size_t packet_len, uint8_t *bytes, size_t bytes_len);

cfu_content_reply cfu_read_content_reply(const uint8_t *packet, size_t packet_len);

#ifdef __cplusplus
}
#endif

#endif
