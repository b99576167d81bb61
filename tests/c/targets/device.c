/*
 * device.c: the device's calls alone, for a microcontroller with 16 KiB of memory, where calls.c does not fit: E13 of document 01; document 02, A4 and A5. The
 * packets are laid out here from E12's bundle, without the library's host.
 *
 * usage: device BUNDLE, where BUNDLE is examples/e12.bundle
 */
#include "cfu.h"

#include <stdio.h>
#include <string.h>

enum { TOKEN = 0xA5, INFORMATION = 0xFF, E12_SIZE = 204, REGION = 64, RECORD_HEAD = 5 };

static unsigned passed, failed;
static uint8_t device[CFU_DEVICE_SIZE], staging[2 * REGION], replies[CFU_REPLIES_SIZE], bundle[E12_SIZE + 1];

static void check(int holds, const char *what, int line)
{
    if (holds) {
        passed++;
    } else {
        failed++;
        printf("WRONG, line %d: %s\n", line, what);
    }
}

#define CHECK(what) check(what, #what, __LINE__)

/* The replies are this one of 16 bytes, and zeros. */
static int replied(const uint8_t *reply)
{
    static const uint8_t none[CFU_REPLIES_SIZE];
    return memcmp(replies, reply, CFU_SHORT_SIZE) == 0 && memcmp(replies + CFU_SHORT_SIZE, none, sizeof replies - CFU_SHORT_SIZE) == 0;
}

static void offered(const uint8_t *packet, uint8_t reason, uint8_t status)
{
    const uint8_t reply[CFU_SHORT_SIZE] = {0, 0, 0, TOKEN, 0, 0, 0, 0, reason, 0, 0, 0, status};
    cfu_replies r = cfu_device_offer(device, sizeof device, staging, sizeof staging, packet, CFU_SHORT_SIZE, replies, sizeof replies);
    CHECK(r.number == CFU_SERVED && r.count == 1 && replied(reply));
}

static void informed(uint8_t code)
{
    const uint8_t packet[CFU_SHORT_SIZE] = {code, 0, INFORMATION, TOKEN};
    offered(packet, 0, CFU_OFFER_ACCEPT);
}

static const uint8_t *entry(unsigned place)
{
    return bundle + CFU_BUNDLE_HEAD_SIZE + CFU_BUNDLE_ENTRY_SIZE * place;
}

static void offer(unsigned place, uint8_t reason, uint8_t status)
{
    uint8_t packet[CFU_SHORT_SIZE];
    memcpy(packet, entry(place), sizeof packet);
    packet[3] = TOKEN;
    offered(packet, reason, status);
}

/* A content packet, and the status in its reply. */
static void block(uint8_t flags, uint8_t sequence, uint8_t address, const uint8_t *data, uint8_t length, uint8_t status)
{
    uint8_t packet[CFU_LONG_SIZE] = {flags, length, sequence, 0, address};
    const uint8_t reply[CFU_SHORT_SIZE] = {sequence, 0, 0, 0, status};
    memcpy(packet + CFU_DATA_AT, data, length);
    cfu_replies r = cfu_device_content(device, sizeof device, staging, sizeof staging, packet, sizeof packet, replies, sizeof replies);
    CHECK(r.number == CFU_SERVED && r.count == 1 && replied(reply));
}

/* The records of an entry's body as content packets; then the region is the image. */
static void contents(unsigned place)
{
    const uint8_t *body = bundle + entry(place)[16], *end = body + entry(place)[20];
    uint8_t image[REGION];
    for (uint8_t sequence = 0; body < end; sequence++) {
        const uint8_t length = body[4], *data = body + RECORD_HEAD, *next = data + length;
        block((uint8_t)((sequence == 0 ? CFU_FLAG_FIRST_BLOCK : 0) | (next == end ? CFU_FLAG_LAST_BLOCK : 0)), sequence, body[0], data, length, CFU_SUCCESS);
        memcpy(image + body[0], data, length);
        body = next;
    }
    CHECK(memcmp(staging + REGION * place, image, sizeof image) == 0);
}

/* An image in blocks of 52, 10 and 2 bytes, over a bus that delivers each of them twice: only the copy of the middle one is no fault. */
static void doubled(unsigned place, const uint8_t *image)
{
    uint8_t record[CFU_DEVICE_SIZE];
    block(CFU_FLAG_FIRST_BLOCK, 0, 0, image, 52, CFU_SUCCESS);
    block(CFU_FLAG_FIRST_BLOCK, 0, 0, image, 52, CFU_ERROR_INVALID);
    block(0, 1, 52, image + 52, 10, CFU_SUCCESS);
    memcpy(record, device, sizeof record);
    block(0, 1, 52, image + 52, 10, CFU_SUCCESS);
    block(0, 1, 52, image + 51, 10, CFU_ERROR_INVALID);
    CHECK(memcmp(record, device, sizeof record) == 0);
    block(CFU_FLAG_LAST_BLOCK, 2, 62, image + 62, 2, CFU_SUCCESS);
    block(CFU_FLAG_LAST_BLOCK, 2, 62, image + 62, 2, CFU_ERROR_NO_OFFER);
    CHECK(memcmp(staging + REGION * place, image, REGION) == 0);
}

/* The version 1.MINOR.0, or zero where the minor is. */
static int is_release(cfu_version v, uint16_t minor)
{
    return v.major == (minor != 0) && v.minor == minor && v.variant == 0;
}

/* The minor of component 2's floor 1.MINOR.0, or 0 where it has none. */
static uint16_t floor_of_second;

/* A component of the device runs 1.MINOR.0, and 1.PENDING.0 is staged, or nothing. */
static void has(uint32_t place, uint16_t minor, uint16_t pending)
{
    cfu_component c = cfu_device_component(device, sizeof device, place);
    CHECK(c.number == CFU_SERVED && c.id == place + 1 && c.base == REGION * place && c.length == REGION);
    CHECK(is_release(c.running, minor) && is_release(c.floor, place == 1 ? floor_of_second : 0));
    CHECK(c.pending == (pending != 0) && is_release(c.staged, pending));
}

/* The bench device of document 01, with that floor. */
static void set_up(uint16_t floor)
{
    const cfu_listed first = {1, {1, 2, 0}, 0, REGION, {0, 0, 0}}, second = {2, {1, 1, 0}, REGION, REGION, {floor != 0, floor, 0}};
    uint8_t list[CFU_LIST_SIZE] = {0};
    floor_of_second = floor;
    memset(staging, 0x77, sizeof staging);
    CHECK(cfu_list_put(list, sizeof list, 0, first) == CFU_SERVED);
    CHECK(cfu_list_put(list, sizeof list, 1, second) == CFU_SERVED);
    CHECK(cfu_device_set_up(device, sizeof device, 0x0042, list, sizeof list, 2, staging, sizeof staging) == CFU_SERVED);
    has(0, 2, 0), has(1, 1, 0);
}

int main(int count, char **words)
{
    uint8_t version[CFU_LONG_SIZE], image[REGION];
    FILE *file = count == 2 ? fopen(words[1], "rb") : NULL;
    if (file == NULL) {
        printf("usage: device BUNDLE\n");
        return 2;
    }
    size_t length = fread(bundle, 1, sizeof bundle, file);
    fclose(file);
    CHECK(length == E12_SIZE);
    set_up(0);

    informed(CFU_INFO_START_ENTIRE_TRANSACTION);
    informed(CFU_INFO_START_OFFER_LIST);
    offer(0, 0, CFU_OFFER_SKIP);
    offer(1, 0, CFU_OFFER_ACCEPT);
    contents(1);
    informed(CFU_INFO_END_OFFER_LIST);
    informed(CFU_INFO_START_OFFER_LIST);
    offer(0, 0, CFU_OFFER_ACCEPT);
    contents(0);
    offer(1, CFU_REJECT_SWAP_PENDING, CFU_OFFER_REJECT);
    informed(CFU_INFO_END_OFFER_LIST);
    has(0, 2, 3), has(1, 1, 2);

    CHECK(cfu_device_reset(device, sizeof device) == CFU_SERVED);
    has(0, 3, 0), has(1, 2, 0);
    CHECK(cfu_device_version_reply(device, sizeof device, version, sizeof version) == CFU_SERVED);
    CHECK(memcmp(version, (const uint8_t[]){2, 0, 0, 2, 0, 3, 0, 1, 0, 1, 0x42, 0, 0, 2, 0, 1, 0, 2, 0x42, 0}, 20) == 0);

    /* A4, with the image that E13 left in component 2's region */
    memcpy(image, staging + REGION, sizeof image);
    set_up(0);
    offer(1, 0, CFU_OFFER_ACCEPT);
    doubled(1, image);
    has(0, 2, 0), has(1, 1, 2);

    /* A5: 1.2.0 is newer than what runs, and below the floor 1.3.0; with the floor 1.2.0 it is taken, and the reset keeps the floor */
    set_up(3);
    offer(1, CFU_REJECT_OLD_FW, CFU_OFFER_REJECT);
    has(1, 1, 0);
    set_up(2);
    offer(1, 0, CFU_OFFER_ACCEPT);
    contents(1);
    has(1, 1, 2);
    CHECK(cfu_device_reset(device, sizeof device) == CFU_SERVED);
    has(1, 2, 0);
    printf("%u passed, %u failed\n", passed, failed);
    return failed == 0 && passed > 0 ? 0 : 1;
}
