/* The lines of C in README.md, against the bench device of document 01: E13's update stages both versions, a second one nothing, and a cut bundle is refused; and
 * the same update in bodies of three blocks, over a bus that delivers the middle ones twice, stages both versions with the same count of packets. */
#include "update.c"

#include <stdio.h>
#include <string.h>

enum { REGION = 64, ON_THE_WAY = 4 };
static uint8_t device[CFU_DEVICE_SIZE], staging[2 * REGION];
static unsigned packets, copies, waits;
static int doubles; /* blocks that are neither first nor last are delivered twice */

/* The replies on their way to the host, the oldest first. */
static uint8_t coming[ON_THE_WAY][CFU_SHORT_SIZE];
static unsigned on_the_way;

static void deliver(const uint8_t *packet, size_t length)
{
    uint8_t replies[CFU_REPLIES_SIZE];
    cfu_replies r = length == CFU_SHORT_SIZE
                        ? cfu_device_offer(device, sizeof device, staging, sizeof staging, packet, length, replies, sizeof replies)
                        : cfu_device_content(device, sizeof device, staging, sizeof staging, packet, length, replies, sizeof replies);
    if (r.count == 1 && on_the_way < ON_THE_WAY)
        memcpy(coming[on_the_way++], replies, CFU_SHORT_SIZE);
}

static size_t send(const uint8_t *packet, size_t length, uint8_t *reply)
{
    packets += length > 0;
    waits += length == 0;
    if (length > 0)
        deliver(packet, length);
    if (length == CFU_LONG_SIZE && doubles && (packet[0] & (CFU_FLAG_FIRST_BLOCK | CFU_FLAG_LAST_BLOCK)) == 0) {
        deliver(packet, length);
        copies++;
    }
    if (on_the_way == 0)
        return 0;
    memcpy(reply, coming[0], CFU_SHORT_SIZE);
    memmove(coming[0], coming[1], --on_the_way * CFU_SHORT_SIZE);
    return CFU_SHORT_SIZE;
}

static void set_up(void)
{
    uint8_t list[CFU_LIST_SIZE] = {0};
    const cfu_listed one = {1, {1, 2, 0}, 0, REGION, {0, 0, 0}}, two = {2, {1, 1, 0}, REGION, REGION, {0, 0, 0}};
    cfu_list_put(list, sizeof list, 0, one);
    cfu_list_put(list, sizeof list, 1, two);
    cfu_device_set_up(device, sizeof device, 0x0042, list, sizeof list, 2, staging, sizeof staging);
}

static int both_staged(void)
{
    cfu_component first = cfu_device_component(device, sizeof device, 0), second = cfu_device_component(device, sizeof device, 1);
    return first.pending && first.staged.minor == 3 && second.pending && second.staged.minor == 2;
}

/* A bundle of the same offers whose bodies the writer cuts, into 52, 10 and 2 bytes. The images are those that the device staged. */
static size_t write_threes(const uint8_t *bundle, const uint8_t *images, uint8_t *threes, size_t room)
{
    uint8_t list[2 * CFU_BUNDLE_ENTRY_SIZE] = {0};
    for (unsigned i = 0; i < 2; i++) {
        uint8_t *entry = list + CFU_BUNDLE_ENTRY_SIZE * i;
        memcpy(entry, bundle + CFU_BUNDLE_HEAD_SIZE + CFU_BUNDLE_ENTRY_SIZE * i, CFU_SHORT_SIZE);
        entry[CFU_SHORT_SIZE] = (uint8_t)(REGION * i);
        entry[CFU_SHORT_SIZE + 4] = REGION;
    }
    return cfu_bundle_write(list, sizeof list, images, 2 * REGION, threes, room).length;
}

int main(int count, char **words)
{
    static uint8_t bundle[CFU_BUNDLE_LIMIT], threes[CFU_BUNDLE_LIMIT];
    FILE *file = count == 2 ? fopen(words[1], "rb") : NULL;
    if (file == NULL)
        return 2;
    size_t length = fread(bundle, 1, sizeof bundle, file);
    fclose(file);
    set_up();
    int left = update(bundle, length, 0xA5, send);
    int fine = left == 0 && packets == 13 && both_staged();
    /* a second run, which the device rejects since both wait for a reset; and a bundle that is cut */
    fine = fine && update(bundle, length, 0xA5, send) == 2 && packets == 18 && update(bundle, length - 1, 0xA5, send) == -1 && packets == 18;
    printf("C: %d offers left, packets %u: %s\n", left, packets, fine ? "as expected" : "WRONG");

    /* E13's 13 packets and one block more in each body: 15, whether the two middle blocks come once or twice */
    uint8_t images[2 * REGION];
    memcpy(images, staging, sizeof images);
    length = write_threes(bundle, images, threes, sizeof threes);
    for (doubles = 0; doubles < 2; doubles++) {
        memset(staging, 0x77, sizeof staging);
        set_up();
        packets = copies = waits = 0;
        left = update(threes, length, 0xA5, send);
        int same = left == 0 && packets == 15 && copies == 2u * (unsigned)doubles && waits == copies && on_the_way == 0 && both_staged() &&
                   memcmp(staging, images, sizeof images) == 0;
        printf("C: %d offers left, packets %u, copies %u, replies passed over %u: %s\n", left, packets, copies, waits, same ? "as expected" : "WRONG");
        fine = fine && same;
    }
    return fine ? 0 : 1;
}
