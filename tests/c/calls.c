/*
 * calls.c: each function of include/cfu.h, called from C on the values of document 01 (E1 to E10, E13, and a case of each row that the interface gives) and of
 * document 02, A1 and A3 to A5; and the words and macros of the headers. The bytes around each lent buffer are checked: no call writes there.
 *
 * usage: calls BUNDLE, where BUNDLE is examples/e12.bundle
 */
#include "cfu.h"
#include "cfu_words.h"

#include <stdio.h>
#include <string.h>

static unsigned passed, failed;

static void check(int holds, const char *what, int line)
{
    if (holds) {
        passed++;
    } else {
        failed++;
        printf("WRONG, line %d: %s\n", line, what);
    }
}

#define CHECK(what) check(what, #what, __LINE__)
#define SAME(bytes, ...) same(bytes, sizeof(bytes) - 2 * EDGE, (const uint8_t[]){__VA_ARGS__}, sizeof((const uint8_t[]){__VA_ARGS__}))

/* A buffer with an edge of guard bytes on both sides; AT is what is lent of it. */
enum { EDGE = 16, STAGING = 128 };
#define BUFFER(name, size) uint8_t name[(size) + 2 * EDGE]
#define AT(name) (name + EDGE), (sizeof(name) - 2 * EDGE)

static void clear(uint8_t *buffer, size_t whole, uint8_t value)
{
    memset(buffer, 0x5C, whole);
    memset(buffer + EDGE, value, whole - 2 * EDGE);
}

#define CLEAR(name, value) clear(name, sizeof(name), value)

static int edges(const uint8_t *buffer, size_t whole)
{
    for (size_t i = 0; i < EDGE; i++)
        if (buffer[i] != 0x5C || buffer[whole - 1 - i] != 0x5C)
            return 0;
    return 1;
}

#define EDGES(name) CHECK(edges(name, sizeof(name)))

/* A buffer is these bytes and then zeros. */
static int same(const uint8_t *buffer, size_t size, const uint8_t *bytes, size_t count)
{
    if (memcmp(buffer + EDGE, bytes, count) != 0)
        return 0;
    for (size_t i = count; i < size; i++)
        if (buffer[EDGE + i] != 0)
            return 0;
    return 1;
}

static int filled(const uint8_t *buffer, size_t size, uint8_t value)
{
    for (size_t i = 0; i < size; i++)
        if (buffer[EDGE + i] != value)
            return 0;
    return 1;
}

#define FILLED(name, value) filled(name, sizeof(name) - 2 * EDGE, value)

static BUFFER(device, CFU_DEVICE_SIZE);
static BUFFER(staging, STAGING);
static BUFFER(replies, CFU_REPLIES_SIZE);
static BUFFER(list, CFU_LIST_SIZE);
static BUFFER(shorter, CFU_SHORT_SIZE);
static BUFFER(longer, CFU_LONG_SIZE);
static BUFFER(bytes, CFU_DATA_SIZE);
static BUFFER(components, CFU_COMPONENTS_SIZE);
static BUFFER(host, CFU_HOST_SIZE);
static BUFFER(other_host, CFU_HOST_SIZE);
static BUFFER(contents, CFU_CONTENTS_SIZE);
static BUFFER(new_contents, CFU_CONTENTS_SIZE);
static BUFFER(third_host, CFU_HOST_SIZE);

/* The bench device of document 01, as CFU_COMPONENT_LIMIT times id, version, base, length, floor. */
static const uint8_t BENCH[CFU_LIST_SIZE] = {1, 0, 2, 0, 1, 0, 0, 0, 0, 64, 0, 0, 0, 0, 0, 0, 0, 2, 0, 1, 0, 1, 64, 0, 0, 0, 64, 0, 0, 0, 0, 0, 0, 0};

static void bench(void)
{
    CLEAR(device, 0);
    CLEAR(staging, 0x77);
    CLEAR(list, 0);
    memcpy(list + EDGE, BENCH, sizeof BENCH);
    CHECK(cfu_device_set_up(AT(device), 0x0042, AT(list), 2, AT(staging)) == CFU_SERVED);
}

static void offers(const uint8_t *packet, size_t length, uint32_t number, uint32_t count)
{
    CLEAR(replies, 0x33);
    cfu_replies r = cfu_device_offer(AT(device), AT(staging), packet, length, AT(replies));
    CHECK(r.number == number && r.count == count);
    EDGES(device), EDGES(staging), EDGES(replies);
}

static void sends(const uint8_t *packet, size_t length, uint32_t number, uint32_t count)
{
    CLEAR(replies, 0x33);
    cfu_replies r = cfu_device_content(AT(device), AT(staging), packet, length, AT(replies));
    CHECK(r.number == number && r.count == count);
    EDGES(device), EDGES(staging), EDGES(replies);
}

/* E2's offer. */
static const uint8_t OFFER[CFU_SHORT_SIZE] = {0, 0, 1, 0xA5, 0, 3, 0, 1, 0, 0, 0, 0, 2, 0, 0x42, 0};

static void offered(uint8_t place, uint8_t value, uint8_t reason, uint8_t status)
{
    uint8_t packet[CFU_SHORT_SIZE];
    memcpy(packet, OFFER, sizeof packet);
    packet[place] = value;
    offers(packet, sizeof packet, CFU_SERVED, 1);
    CHECK(SAME(replies, 0, 0, 0, 0xA5, 0, 0, 0, 0, reason, 0, 0, 0, status));
}

/* A first block, and the status that it gets. */
static void block(uint8_t length, uint32_t address, uint16_t sequence, uint8_t status)
{
    const uint8_t packet[CFU_LONG_SIZE] = {CFU_FLAG_FIRST_BLOCK, length, (uint8_t)sequence, (uint8_t)(sequence >> 8), (uint8_t)address, (uint8_t)(address >> 8),
                                           (uint8_t)(address >> 16), (uint8_t)(address >> 24)};
    sends(packet, sizeof packet, CFU_SERVED, 1);
    CHECK(SAME(replies, (uint8_t)sequence, (uint8_t)(sequence >> 8), 0, 0, status));
}

/* The size of the session in a device's record; of component i the place of the floor and of the flag for a staged version, which that version follows. */
enum { SESSION_SIZE = CFU_DEVICE_COMPONENTS_AT - CFU_DEVICE_SESSION_AT };
#define FLOOR(i) (CFU_DEVICE_COMPONENTS_AT + CFU_COMPONENT_SIZE * (i) + CFU_COMPONENT_FLOOR_AT)
#define STAGED(i) (CFU_DEVICE_COMPONENTS_AT + CFU_COMPONENT_SIZE * (i) + CFU_COMPONENT_STAGED_AT)

/* With another value at a place no call serves the record, and it stays as it is. */
static void no_device(unsigned place, uint8_t value)
{
    BUFFER(before, CFU_DEVICE_SIZE);
    const uint8_t last[CFU_LONG_SIZE] = {CFU_FLAG_LAST_BLOCK, 1};
    const uint8_t kept = device[EDGE + place];
    device[EDGE + place] = value;
    memcpy(before, device, sizeof device);
    offers(OFFER, sizeof OFFER, CFU_D1, 0);
    sends(last, sizeof last, CFU_D1, 0);
    CHECK(FILLED(replies, 0));
    CHECK(cfu_device_reset(AT(device)) == CFU_D1);
    CHECK(cfu_device_version_reply(AT(device), AT(longer)) == CFU_D1 && FILLED(longer, 0));
    CHECK(memcmp(before, device, sizeof device) == 0);
    device[EDGE + place] = kept;
}

/* Bytes of a device's record that are passed over, and flags that no record has. */
static void device_bytes(void)
{
    BUFFER(wanted, CFU_DEVICE_SIZE);
    BUFFER(new_device, CFU_DEVICE_SIZE);
    bench();
    memcpy(new_device, device, sizeof device);
    /* idle, nothing owed, nothing staged: slot, token, sequence, owed token, previous packet and staged versions have no meaning */
    memset(device + EDGE + CFU_DEVICE_SESSION_AT + 1, 0x99, CFU_DEVICE_OWED_AT - CFU_DEVICE_SESSION_AT - 1);
    device[EDGE + CFU_DEVICE_OWED_AT + 1] = 0x99;
    memset(device + EDGE + CFU_DEVICE_PREVIOUS_AT, 0x99, CFU_LONG_SIZE);
    for (unsigned i = 0; i < CFU_COMPONENT_LIMIT; i++)
        memset(device + EDGE + STAGED(i) + 1, 0x99, 4);
    memcpy(wanted, device, sizeof device);
    CHECK(cfu_device_version_reply(AT(device), AT(longer)) == CFU_SERVED);
    CHECK(SAME(longer, 2, 0, 0, 2, 0, 2, 0, 1, 0, 1, 0x42, 0, 0, 1, 0, 1, 0, 2, 0x42, 0));
    /* an offer writes the session anew and leaves the rest; the previous packet stays where the session does, and goes where one opens */
    offered(5, 2, CFU_REJECT_OLD_FW, CFU_OFFER_REJECT);
    memset(wanted + EDGE + CFU_DEVICE_SESSION_AT, 0, CFU_DEVICE_PREVIOUS_AT - CFU_DEVICE_SESSION_AT);
    CHECK(memcmp(device, wanted, sizeof device) == 0);
    offered(0, 0, 0, CFU_OFFER_ACCEPT);
    memcpy(wanted + EDGE + CFU_DEVICE_SESSION_AT, (const uint8_t[SESSION_SIZE]){1, 0, 0xA5}, SESSION_SIZE);
    CHECK(memcmp(device, wanted, sizeof device) == 0);
    /* content also writes the session's component; the packet of a block that is taken is the previous one */
    device[EDGE + CFU_DEVICE_OWED_AT + 1] = 0x99;
    memset(device + EDGE + CFU_DEVICE_PREVIOUS_AT, 0x99, CFU_LONG_SIZE);
    block(1, 0, 7, CFU_SUCCESS);
    memcpy(wanted + EDGE + CFU_DEVICE_SESSION_AT, (const uint8_t[SESSION_SIZE]){2, 0, 0xA5, 8, 0, 0, 0, CFU_FLAG_FIRST_BLOCK, 1, 7}, SESSION_SIZE);
    memset(wanted + EDGE + STAGED(0) + 1, 0, 4);
    CHECK(memcmp(device, wanted, sizeof device) == 0);
    /* its sequence, 7, is just before the next one, 8: D1 for another, and for another next one; the rest of the packet is not judged */
    no_device(CFU_DEVICE_PREVIOUS_AT + 2, 6);
    no_device(CFU_DEVICE_PREVIOUS_AT + 2, 8);
    no_device(CFU_DEVICE_PREVIOUS_AT + 3, 1);
    no_device(CFU_DEVICE_SESSION_AT + 3, 7);
    no_device(CFU_DEVICE_SESSION_AT + 4, 1);
    memset(device + EDGE + CFU_DEVICE_PREVIOUS_AT, 0xFF, 2);
    memset(device + EDGE + CFU_DEVICE_PREVIOUS_AT + 4, 0xFF, CFU_LONG_SIZE - 4);
    CHECK(cfu_device_version_reply(AT(device), AT(longer)) == CFU_SERVED);
    memcpy(device, wanted, sizeof device);
    /* a flag past its range is D1, in a component that is not in use too */
    no_device(CFU_DEVICE_SESSION_AT, 3);
    no_device(CFU_DEVICE_OWED_AT, 2);
    no_device(STAGED(0), 2);
    no_device(STAGED(CFU_COMPONENT_LIMIT - 1), 2);
    /* and so is a staged version of another variant than the running 1.1.0, or of a lower release; its own is served */
    const uint8_t pending[] = {1, 0, 2, 0, 1};
    memcpy(device + EDGE + STAGED(1), pending, sizeof pending);
    CHECK(cfu_device_version_reply(AT(device), AT(longer)) == CFU_SERVED);
    no_device(STAGED(1) + 1, 1);
    no_device(STAGED(1) + 2, 0);
    memset(device + EDGE + STAGED(1), 0, sizeof pending);
    /* a reset writes the whole record */
    CHECK(cfu_device_reset(AT(device)) == CFU_SERVED);
    CHECK(memcmp(device, new_device, sizeof device) == 0);
}

static void device_calls(void)
{
    /* E1 */
    bench();
    CLEAR(longer, 0x33);
    CHECK(cfu_device_version_reply(AT(device), AT(longer)) == CFU_SERVED);
    CHECK(SAME(longer, 2, 0, 0, 2, 0, 2, 0, 1, 0, 1, 0x42, 0, 0, 1, 0, 1, 0, 2, 0x42, 0));
    EDGES(longer);
    CLEAR(components, 0x33);
    cfu_version_reply v = cfu_read_version_reply(AT(longer), AT(components));
    CHECK(v.number == CFU_SERVED && v.count == 2 && v.protocol == CFU_PROTOCOL);
    CHECK(SAME(components, 0, 2, 0, 1, 1, 0x42, 0, 0, 1, 0, 1, 2, 0x42, 0));
    EDGES(components);
    CLEAR(longer, 0x33);
    CHECK(cfu_build_version_reply(2, CFU_PROTOCOL, AT(components), AT(longer)) == CFU_SERVED);
    CHECK(SAME(longer, 2, 0, 0, 2, 0, 2, 0, 1, 0, 1, 0x42, 0, 0, 1, 0, 1, 0, 2, 0x42, 0));

    /* E7, E3 to E6 and E2 */
    block(1, 0, 0x1234, CFU_ERROR_NO_OFFER);
    offered(5, 2, CFU_REJECT_OLD_FW, CFU_OFFER_REJECT);
    offered(12, 1, CFU_REJECT_WRONG_PROTOCOL, CFU_OFFER_REJECT);
    const uint8_t unmet[CFU_SHORT_SIZE] = {0, 0, 1, 0xA5, 0, 3, 0, 1, 2, 2, 0, 1, 2, 0, 0x42, 0};
    offers(unmet, sizeof unmet, CFU_SERVED, 1);
    CHECK(SAME(replies, 0, 0, 0, 0xA5, 0, 0, 0, 0, 0, 0, 0, 0, CFU_OFFER_SKIP));
    offered(14, 0x43, CFU_REJECT_INV_COMPONENT, CFU_OFFER_REJECT);
    offered(0, 1, CFU_REJECT_WRONG_SEGMENT, CFU_OFFER_REJECT);
    /* another variant than the running one: of a newer release, and of the running one, the customer's case */
    offered(4, 1, CFU_REJECT_WRONG_VARIANT, CFU_OFFER_REJECT);
    const uint8_t debug[CFU_SHORT_SIZE] = {0, 0, 1, 0xA5, 1, 2, 0, 1, 0, 0, 0, 0, 2, 0, 0x42, 0};
    offers(debug, sizeof debug, CFU_SERVED, 1);
    CHECK(SAME(replies, 0, 0, 0, 0xA5, 0, 0, 0, 0, CFU_REJECT_WRONG_VARIANT, 0, 0, 0, CFU_OFFER_REJECT));
    CHECK(FILLED(staging, 0x77));
    offered(0, 0, 0, CFU_OFFER_ACCEPT);
    offered(0, 0, 0, CFU_OFFER_BUSY);

    /* E8 at 13, E9, E10 change nothing; a READY becomes owed */
    block(CFU_DATA_SIZE, 13, 7, CFU_ERROR_INVALID_ADDR);
    block(1, 0xFFFFFFFF, 7, CFU_ERROR_INVALID_ADDR);
    block(CFU_DATA_SIZE + 1, 0, 7, CFU_ERROR_INVALID);
    CHECK(FILLED(staging, 0x77));
    const uint8_t notify[CFU_SHORT_SIZE] = {CFU_NOTIFY_ON_READY, 0, 0xFE, 0x31};
    offers(notify, sizeof notify, CFU_SERVED, 0);
    CHECK(FILLED(replies, 0));
    /* E8 at 12: region 0-63 is erased, the data written, region 64-127 left */
    block(CFU_DATA_SIZE, 12, 0xFFFF, CFU_SUCCESS);
    for (unsigned i = 0; i < STAGING; i++)
        CHECK(staging[EDGE + i] == (i < 12 ? 0xFF : i < 64 ? 0 : 0x77));
    /* a last block makes the session idle: its reply, and then the owed READY. Sequence 0 follows 0xFFFF; the CRC is wrong */
    const uint8_t last[CFU_LONG_SIZE] = {CFU_FLAG_LAST_BLOCK, 1};
    sends(last, sizeof last, CFU_SERVED, 2);
    CHECK(SAME(replies, 0, 0, 0, 0, CFU_ERROR_CRC, 0, 0, 0, 0, 0, 0, 0, 0, 0, 0, 0, 0, 0, 0, 0x31, 0, 0, 0, 0, 0, 0, 0, 0, CFU_OFFER_READY));
    CHECK(cfu_device_reset(AT(device)) == CFU_SERVED);

    /* D3, D2 and D1: the replies zeroed, the rest as it was */
    BUFFER(before, CFU_DEVICE_SIZE);
    memcpy(before, device, sizeof device);
    offers(OFFER, CFU_SHORT_SIZE - 1, CFU_D3, 0);
    CHECK(FILLED(replies, 0));
    sends(OFFER, sizeof OFFER, CFU_D3, 0);
    cfu_replies r = cfu_device_offer(AT(device), staging + EDGE, STAGING - 1, OFFER, sizeof OFFER, AT(replies));
    CHECK(r.number == CFU_D2 && r.count == 0);
    r = cfu_device_content(AT(device), staging + EDGE, STAGING - 1, last, sizeof last, AT(replies));
    CHECK(r.number == CFU_D2 && r.count == 0);
    CHECK(memcmp(before, device, sizeof device) == 0);
    CLEAR(device, 0);
    offers(OFFER, sizeof OFFER, CFU_D1, 0);
    sends(last, sizeof last, CFU_D1, 0);
    CHECK(cfu_device_reset(AT(device)) == CFU_D1);
    CHECK(cfu_device_version_reply(AT(device), AT(longer)) == CFU_D1);
    CHECK(FILLED(longer, 0) && FILLED(device, 0));

    /* S2 to S5, and the record as it was */
    CHECK(cfu_device_set_up(AT(device), 0x0042, AT(list), 0, AT(staging)) == CFU_S2);
    CHECK(cfu_device_set_up(AT(device), 0x0042, AT(list), CFU_COMPONENT_LIMIT + 1, AT(staging)) == CFU_S2);
    CHECK(cfu_device_set_up(AT(device), 0x0042, AT(list), 3, AT(staging)) == CFU_S3);
    CHECK(cfu_device_set_up(AT(device), 0x0042, AT(list), 2, staging + EDGE, STAGING - 1) == CFU_S4);
    list[EDGE + CFU_LISTED_SIZE + CFU_COMPONENT_FLOOR_AT] = 1;
    CHECK(cfu_device_set_up(AT(device), 0x0042, AT(list), 2, AT(staging)) == CFU_S5);
    CHECK(cfu_device_set_up(AT(device), 0x0042, AT(list), 2, staging + EDGE, STAGING - 1) == CFU_S4);
    CHECK(FILLED(device, 0));
    list[EDGE + CFU_LISTED_SIZE + CFU_COMPONENT_FLOOR_AT] = 0;

    /* C1 to C3 */
    CHECK(cfu_device_set_up(device + EDGE, CFU_DEVICE_SIZE - 1, 0x0042, AT(list), 2, AT(staging)) == CFU_C1);
    CHECK(cfu_device_set_up(AT(device), 0x0042, list + EDGE, CFU_LIST_SIZE + 1, 2, AT(staging)) == CFU_C2);
    CHECK(cfu_device_version_reply(device + EDGE, 0, AT(longer)) == CFU_C1);
    CHECK(cfu_device_version_reply(AT(device), longer + EDGE, CFU_LONG_SIZE - 1) == CFU_C3);
    CHECK(cfu_device_reset(device + EDGE, CFU_DEVICE_SIZE + 1) == CFU_C1);
    CHECK(cfu_device_offer(device + EDGE, 0, AT(staging), OFFER, sizeof OFFER, AT(replies)).number == CFU_C1);
    CHECK(cfu_device_offer(AT(device), AT(staging), OFFER, sizeof OFFER, replies + EDGE, CFU_REPLIES_SIZE - 1).number == CFU_C3);
    CHECK(cfu_device_content(device + EDGE, 0, AT(staging), last, sizeof last, AT(replies)).number == CFU_C1);
    CHECK(cfu_device_content(AT(device), AT(staging), last, sizeof last, replies + EDGE, CFU_REPLIES_SIZE - 1).number == CFU_C3);
}

/* ---- A block that comes again (document 02, A4) ---- */

/* A content packet for component 1 of the bench device: its data are so many bytes of this value, and what is unused has another. */
static void make_content(uint8_t *packet, uint8_t flags, uint8_t length, uint16_t sequence, uint8_t address, uint8_t value)
{
    memset(packet, (uint8_t)~value, CFU_LONG_SIZE);
    memcpy(packet, (const uint8_t[]){flags, length, (uint8_t)sequence, (uint8_t)(sequence >> 8), address, 0, 0, 0}, CFU_DATA_AT);
    memset(packet + CFU_DATA_AT, value, length);
}

/* A content packet, and the status in its one reply. */
static void answered(const uint8_t *packet, uint8_t status)
{
    sends(packet, CFU_LONG_SIZE, CFU_SERVED, 1);
    CHECK(SAME(replies, packet[2], packet[3], 0, 0, status));
}

/* The same, and neither the record nor the staging memory changes. */
static void unchanged(const uint8_t *packet, uint8_t status)
{
    BUFFER(record, CFU_DEVICE_SIZE);
    BUFFER(memory, STAGING);
    memcpy(record, device, sizeof device);
    memcpy(memory, staging, sizeof staging);
    answered(packet, status);
    CHECK(memcmp(record, device, sizeof device) == 0 && memcmp(memory, staging, sizeof staging) == 0);
}

/* The previous packet in the device's record. */
static int previous_is(const uint8_t *packet)
{
    return memcmp(device + EDGE + CFU_DEVICE_PREVIOUS_AT, packet, CFU_LONG_SIZE) == 0;
}

static void device_copies(void)
{
    static const uint8_t none[CFU_LONG_SIZE];
    uint8_t first[CFU_LONG_SIZE], middle[CFU_LONG_SIZE], third[CFU_LONG_SIZE], last[CFU_LONG_SIZE], other[CFU_LONG_SIZE];
    make_content(first, CFU_FLAG_FIRST_BLOCK, 50, 7, 0, 0x11);
    make_content(middle, 0, 4, 8, 50, 0x22);
    make_content(third, 0, 4, 9, 54, 0x33);
    make_content(last, CFU_FLAG_LAST_BLOCK, 6, 10, 58, 0x44);
    bench();
    CHECK(previous_is(none));
    unchanged(middle, CFU_ERROR_NO_OFFER);
    offered(0, 0, 0, CFU_OFFER_ACCEPT);
    unchanged(middle, CFU_ERROR_INVALID);

    /* the first block: a second one is refused, and so is the same without the flag, whose bytes are others */
    answered(first, CFU_SUCCESS);
    CHECK(previous_is(first));
    unchanged(first, CFU_ERROR_INVALID);
    memcpy(other, first, sizeof other);
    other[0] = 0;
    unchanged(other, CFU_ERROR_INVALID);

    /* a copy of a block that is neither first nor last, once and several times: what stands in the memory meanwhile is not written over */
    answered(middle, CFU_SUCCESS);
    CHECK(previous_is(middle));
    for (unsigned i = 0; i < 5; i++)
        unchanged(middle, CFU_SUCCESS);
    staging[EDGE + 50] = 0x77;
    unchanged(middle, CFU_SUCCESS);
    CHECK(staging[EDGE + 50] == 0x77);
    staging[EDGE + 50] = 0x22;
    /* one bit that differs in any of the 60 bytes, those behind the data too; a block refused in between does not matter */
    for (unsigned place = 0; place < CFU_LONG_SIZE; place++) {
        memcpy(other, middle, sizeof other);
        other[place] ^= 0x80;
        unchanged(other, CFU_ERROR_INVALID);
        unchanged(middle, CFU_SUCCESS);
    }
    /* offers in between do not matter either; a copy brings no READY that is owed */
    offered(0, 0, 0, CFU_OFFER_BUSY);
    const uint8_t notify[CFU_SHORT_SIZE] = {CFU_NOTIFY_ON_READY, 0, 0xFE, 0x31};
    offers(notify, sizeof notify, CFU_SERVED, 0);
    unchanged(middle, CFU_SUCCESS);

    /* the next block, after which only its own copy is one */
    answered(third, CFU_SUCCESS);
    CHECK(previous_is(third));
    unchanged(middle, CFU_ERROR_INVALID);
    unchanged(third, CFU_SUCCESS);
    /* the last block: its image is judged, the READY comes, the session is over, and a second one finds none */
    sends(last, sizeof last, CFU_SERVED, 2);
    CHECK(SAME(replies, 10, 0, 0, 0, CFU_ERROR_CRC, 0, 0, 0, 0, 0, 0, 0, 0, 0, 0, 0, 0, 0, 0, 0x31, 0, 0, 0, 0, 0, 0, 0, 0, CFU_OFFER_READY));
    CHECK(previous_is(none));
    unchanged(last, CFU_ERROR_NO_OFFER);
    unchanged(third, CFU_ERROR_NO_OFFER);
    for (unsigned i = 0; i < STAGING; i++)
        CHECK(staging[EDGE + i] == (i < 50 ? 0x11 : i < 54 ? 0x22 : i < 58 ? 0x33 : i < 64 ? 0x44 : 0x77));
}

/* Sequences past 65,535, and previous packets that no run leaves. */
static void device_wraps(void)
{
    uint8_t first[CFU_LONG_SIZE], middle[CFU_LONG_SIZE], third[CFU_LONG_SIZE];
    make_content(first, CFU_FLAG_FIRST_BLOCK, 1, 0xFFFE, 0, 0x11);
    make_content(middle, 0, 1, 0xFFFF, 1, 0x22);
    make_content(third, 0, 1, 0, 2, 0x33);
    bench();
    offered(0, 0, 0, CFU_OFFER_ACCEPT);
    answered(first, CFU_SUCCESS);
    answered(middle, CFU_SUCCESS);
    CHECK(device[EDGE + CFU_DEVICE_SESSION_AT + 3] == 0 && device[EDGE + CFU_DEVICE_SESSION_AT + 4] == 0);
    unchanged(middle, CFU_SUCCESS);
    /* 65,535 is just before 0, and nothing else is */
    no_device(CFU_DEVICE_PREVIOUS_AT + 2, 0xFE);
    no_device(CFU_DEVICE_PREVIOUS_AT + 3, 0);
    no_device(CFU_DEVICE_SESSION_AT + 3, 1);
    answered(third, CFU_SUCCESS);
    unchanged(third, CFU_SUCCESS);
    unchanged(middle, CFU_ERROR_INVALID);
    /* a copy is answered before its address is looked at; a previous packet with a flag has no copy */
    memset(device + EDGE + CFU_DEVICE_PREVIOUS_AT + 4, 0xFF, 4);
    memset(third + 4, 0xFF, 4);
    unchanged(third, CFU_SUCCESS);
    device[EDGE + CFU_DEVICE_PREVIOUS_AT] = third[0] = CFU_FLAG_LAST_BLOCK;
    unchanged(third, CFU_ERROR_INVALID);
    /* code 0 takes the previous packet away, and a reset does, also one that is not looked at */
    const uint8_t start[CFU_SHORT_SIZE] = {CFU_INFO_START_ENTIRE_TRANSACTION, 0, 0xFF, 0x31};
    for (unsigned i = 0; i < 2; i++) {
        if (i == 0)
            offers(start, sizeof start, CFU_SERVED, 1);
        else
            CHECK(cfu_device_reset(AT(device)) == CFU_SERVED);
        CHECK(filled(device + CFU_DEVICE_SESSION_AT, SESSION_SIZE, 0));
        memset(device + EDGE + CFU_DEVICE_PREVIOUS_AT, 0x99, CFU_LONG_SIZE);
    }
    /* a record of the length that it had before A4, and before A5; a list of that before A5 */
    static const size_t old[] = {140, 200};
    enum { OLD_LIST = 91 };
    bench();
    for (unsigned i = 0; i < 2; i++) {
        CHECK(cfu_device_set_up(device + EDGE, old[i], 0x0042, AT(list), 2, AT(staging)) == CFU_C1);
        CHECK(cfu_device_version_reply(device + EDGE, old[i], AT(longer)) == CFU_C1);
        CHECK(cfu_device_offer(device + EDGE, old[i], AT(staging), OFFER, sizeof OFFER, AT(replies)).number == CFU_C1);
        CHECK(cfu_device_content(device + EDGE, old[i], AT(staging), first, sizeof first, AT(replies)).number == CFU_C1);
        CHECK(cfu_device_component(device + EDGE, old[i], 0).number == CFU_C1);
        CHECK(cfu_device_reset(device + EDGE, old[i]) == CFU_C1);
    }
    CHECK(cfu_device_set_up(AT(device), 0x0042, list + EDGE, OLD_LIST, 2, AT(staging)) == CFU_C2);
    EDGES(device);
}

static void packet_calls(void)
{
    /* an offer with a value of its own in each field; the build document's bytes 0 to 15 */
    const cfu_offer o = {.segment = 0x11, .force_immediate_reset = 1, .force_ignore_version = 0, .id = 0x22, .token = 0x33, .version = {0x44, 0x5566, 0x77}, .need = 0x88,
                         .least = 0x99AABB, .protocol = CFU_PROTOCOL, .platform = 0xCCDD};
    CLEAR(shorter, 0x33);
    CHECK(cfu_build_offer(o, AT(shorter)) == CFU_SERVED);
    CHECK(SAME(shorter, 0x11, 0x40, 0x22, 0x33, 0x77, 0x66, 0x55, 0x44, 0x88, 0xBB, 0xAA, 0x99, 2, 0, 0xDD, 0xCC));
    EDGES(shorter);
    cfu_offer_packet p = cfu_read_offer(AT(shorter));
    CHECK(p.number == CFU_SERVED && p.kind == CFU_KIND_OFFER && p.signal.code == 0 && p.signal.token == 0);
    CHECK(p.offer.segment == 0x11 && p.offer.force_immediate_reset == 1 && p.offer.force_ignore_version == 0 && p.offer.id == 0x22 && p.offer.token == 0x33);
    CHECK(p.offer.version.major == 0x44 && p.offer.version.minor == 0x5566 && p.offer.version.variant == 0x77);
    CHECK(p.offer.need == 0x88 && p.offer.least == 0x99AABB && p.offer.protocol == CFU_PROTOCOL && p.offer.platform == 0xCCDD);
    cfu_offer wrong = o;
    wrong.force_ignore_version = 1;
    CHECK(cfu_build_offer(wrong, AT(shorter)) == CFU_SERVED && shorter[EDGE + 1] == 0xC0);
    wrong.force_ignore_version = 2;
    CHECK(cfu_build_offer(wrong, AT(shorter)) == CFU_P2 && FILLED(shorter, 0));
    wrong = o;
    wrong.least = 0x1000000;
    CHECK(cfu_build_offer(wrong, AT(shorter)) == CFU_P2);
    wrong = o;
    wrong.id = 0xFE;
    CHECK(cfu_build_offer(wrong, AT(shorter)) == CFU_P2);
    wrong = o;
    wrong.protocol = 16;
    CHECK(cfu_build_offer(wrong, AT(shorter)) == CFU_P2);
    CHECK(cfu_build_offer(o, shorter + EDGE, CFU_SHORT_SIZE - 1) == CFU_C3);
    p = cfu_read_offer(shorter + EDGE, CFU_SHORT_SIZE - 1);
    CHECK(p.number == CFU_P1 && p.kind == CFU_KIND_NONE && p.offer.platform == 0);

    CHECK(cfu_build_information(CFU_INFO_END_OFFER_LIST, 0x21, AT(shorter)) == CFU_SERVED);
    CHECK(SAME(shorter, 2, 0, 0xFF, 0x21));
    p = cfu_read_offer(AT(shorter));
    CHECK(p.number == CFU_SERVED && p.kind == CFU_KIND_INFORMATION && p.signal.code == CFU_INFO_END_OFFER_LIST && p.signal.token == 0x21 && p.offer.id == 0);
    CHECK(cfu_build_information(CFU_INFO_END_OFFER_LIST, 0x21, shorter + EDGE, CFU_SHORT_SIZE + 1) == CFU_C3);

    CHECK(cfu_build_extended(CFU_NOTIFY_ON_READY, 0x22, AT(shorter)) == CFU_SERVED);
    CHECK(SAME(shorter, 1, 0, 0xFE, 0x22));
    p = cfu_read_offer(AT(shorter));
    CHECK(p.number == CFU_SERVED && p.kind == CFU_KIND_EXTENDED && p.signal.code == CFU_NOTIFY_ON_READY && p.signal.token == 0x22);
    CHECK(cfu_build_extended(CFU_NOTIFY_ON_READY, 0x22, shorter + EDGE, 0) == CFU_C3);

    CHECK(cfu_build_offer_reply(0xA5, CFU_REJECT_WRONG_PROTOCOL, CFU_OFFER_REJECT, AT(shorter)) == CFU_SERVED);
    CHECK(SAME(shorter, 0, 0, 0, 0xA5, 0, 0, 0, 0, 0xE0, 0, 0, 0, 2));
    cfu_offer_reply q = cfu_read_offer_reply(AT(shorter));
    CHECK(q.number == CFU_SERVED && q.token == 0xA5 && q.reason == CFU_REJECT_WRONG_PROTOCOL && q.status == CFU_OFFER_REJECT);
    q = cfu_read_offer_reply(shorter + EDGE, 0);
    CHECK(q.number == CFU_P1 && q.token == 0 && q.reason == 0 && q.status == 0);
    CHECK(cfu_build_offer_reply(0xA5, CFU_REJECT_WRONG_PROTOCOL, CFU_OFFER_REJECT, shorter + EDGE, CFU_SHORT_SIZE - 1) == CFU_C3);

    CLEAR(bytes, 0x66);
    CLEAR(longer, 0x33);
    CHECK(cfu_build_content(CFU_FLAG_FIRST_BLOCK | CFU_FLAG_LAST_BLOCK, 3, 0x1234, 0x89ABCDEF, AT(bytes), AT(longer)) == CFU_SERVED);
    CHECK(SAME(longer, 0xC0, 3, 0x34, 0x12, 0xEF, 0xCD, 0xAB, 0x89, 0x66, 0x66, 0x66));
    cfu_content c = cfu_read_content(AT(longer), AT(bytes));
    CHECK(c.number == CFU_SERVED && c.flags == (CFU_FLAG_FIRST_BLOCK | CFU_FLAG_LAST_BLOCK) && c.length == 3 && c.sequence == 0x1234 && c.address == 0x89ABCDEF);
    CHECK(SAME(bytes, 0x66, 0x66, 0x66));
    EDGES(bytes), EDGES(longer);
    CHECK(cfu_build_content(0x20, 3, 0, 0, AT(bytes), AT(longer)) == CFU_P2 && FILLED(longer, 0));
    CHECK(cfu_build_content(0, 0, 0, 0, AT(bytes), AT(longer)) == CFU_P2);
    CHECK(cfu_build_content(0, CFU_DATA_SIZE + 1, 0, 0, AT(bytes), AT(longer)) == CFU_P2);
    CHECK(cfu_build_content(0, CFU_DATA_SIZE, 0, 0, bytes + EDGE, CFU_DATA_SIZE - 1, AT(longer)) == CFU_C2);
    CHECK(cfu_build_content(0, CFU_DATA_SIZE, 0, 0, AT(bytes), longer + EDGE, CFU_LONG_SIZE - 1) == CFU_C3);
    CHECK(cfu_read_content(longer + EDGE, CFU_LONG_SIZE - 1, AT(bytes)).number == CFU_P1 && FILLED(bytes, 0));
    CHECK(cfu_read_content(AT(longer), bytes + EDGE, CFU_DATA_SIZE - 1).number == CFU_C3);

    CHECK(cfu_build_content_reply(0x1234, CFU_ERROR_NO_OFFER, AT(shorter)) == CFU_SERVED);
    CHECK(SAME(shorter, 0x34, 0x12, 0, 0, 0x0A));
    cfu_content_reply s = cfu_read_content_reply(AT(shorter));
    CHECK(s.number == CFU_SERVED && s.sequence == 0x1234 && s.status == CFU_ERROR_NO_OFFER);
    s = cfu_read_content_reply(shorter + EDGE, CFU_SHORT_SIZE + 1);
    CHECK(s.number == CFU_P1 && s.sequence == 0 && s.status == 0);
    CHECK(cfu_build_content_reply(0x1234, CFU_ERROR_NO_OFFER, shorter + EDGE, CFU_SHORT_SIZE - 1) == CFU_C3);

    CHECK(cfu_build_version_reply(CFU_COMPONENT_LIMIT + 1, CFU_PROTOCOL, AT(components), AT(longer)) == CFU_P2);
    CHECK(cfu_build_version_reply(CFU_COMPONENT_LIMIT, CFU_PROTOCOL + 1, AT(components), AT(longer)) == CFU_P2);
    CHECK(cfu_build_version_reply(CFU_COMPONENT_LIMIT, CFU_PROTOCOL, components + EDGE, CFU_COMPONENTS_SIZE - 1, AT(longer)) == CFU_C2);
    CHECK(cfu_build_version_reply(CFU_COMPONENT_LIMIT, CFU_PROTOCOL, AT(components), longer + EDGE, CFU_LONG_SIZE - 1) == CFU_C3);
    CHECK(cfu_read_version_reply(longer + EDGE, CFU_LONG_SIZE - 1, AT(components)).number == CFU_P1);
    CLEAR(longer, CFU_COMPONENT_LIMIT + 1);
    CHECK(cfu_read_version_reply(AT(longer), AT(components)).number == CFU_P2 && FILLED(components, 0));
    CHECK(cfu_read_version_reply(AT(longer), components + EDGE, CFU_COMPONENTS_SIZE + 1).number == CFU_C3);
}

/* Contents that a check leaves: these bytes, zeros up to the block in hand, which is none, and the cursor, which is 0. */
static int new_check(const uint8_t *buffer, const uint8_t *bytes, size_t count)
{
    uint8_t wanted[CFU_CONTENTS_SIZE] = { 0 };
    memcpy(wanted, bytes, count);
    memset(wanted + CFU_CONTENTS_HAND_AT, 0xFF, CFU_CONTENTS_CURSOR_AT - CFU_CONTENTS_HAND_AT);
    return memcmp(buffer + EDGE, wanted, sizeof wanted) == 0;
}

/* With another value at a place no call serves the record, and it stays as it is. */
static void no_host(const uint8_t *bundle, size_t length, unsigned place, uint8_t value)
{
    BUFFER(before, CFU_HOST_SIZE);
    const uint8_t kept = host[EDGE + place];
    host[EDGE + place] = value;
    memcpy(before, host, sizeof host);
    memcpy(contents, new_contents, sizeof contents);
    CHECK(cfu_host_step(AT(host), bundle, length, replies + EDGE, 0, AT(longer)).number == CFU_N1 && FILLED(longer, 0));
    CHECK(cfu_host_step_checked(AT(host), AT(contents), bundle, length, replies + EDGE, 0, AT(longer)).number == CFU_N1 && FILLED(longer, 0));
    CHECK(cfu_host_report(AT(host)).number == CFU_N1);
    CHECK(memcmp(before, host, sizeof host) == 0);
    host[EDGE + place] = kept;
}

/* Bytes of a host's record that are passed over, and flags that no record has. */
static void host_bytes(const uint8_t *bundle, size_t length)
{
    /* the two numbers of a fresh host: the step is served, and writes the whole record */
    CHECK(cfu_host_fresh(AT(host), 0xA5) == CFU_SERVED);
    memset(host + EDGE + CFU_HOST_FIRST_AT, 0x99, CFU_HOST_MASK_AT - CFU_HOST_FIRST_AT);
    CHECK(cfu_host_report(AT(host)).number == CFU_SERVED);
    CHECK(cfu_host_step(AT(host), bundle, length, replies + EDGE, 0, AT(longer)).length == CFU_SHORT_SIZE);
    CHECK(SAME(host, 0xA5, 1, 0, 0, 0, 0, 0, 0, 0, 0, 0, 0, 0, 0, 1));
    no_host(bundle, length, CFU_HOST_STAGE_AT, 8);
    no_host(bundle, length, CFU_HOST_SKIPPED_AT, 2);
    no_host(bundle, length, CFU_HOST_LANDED_AT, 2);
    no_host(bundle, length, CFU_HOST_PASSED_AT, 2);
    /* H1 with status 5: of its four bytes the low one is read */
    const uint8_t ended[CFU_HOST_SIZE] = {0xA5, 7, 1, 0, 0, 0, 5, 0x99, 0x99, 0x99};
    memcpy(host + EDGE, ended, sizeof ended);
    cfu_report r = cfu_host_report(AT(host));
    CHECK(r.number == CFU_SERVED && r.ending == CFU_H1 && r.status == 5);
    no_host(bundle, length, CFU_HOST_FIRST_AT, 5);
    no_host(bundle, length, CFU_HOST_SECOND_AT - 1, 1);
    no_host(bundle, length, CFU_HOST_PASSED_AT, 0xFF);
    host[EDGE + CFU_HOST_PASSED_AT] = 1;
    cfu_step a = cfu_host_step(AT(host), bundle, length, replies + EDGE, 0, AT(longer));
    CHECK(a.number == CFU_SERVED && a.length == 0 && SAME(host, 0xA5, 7, 1, 0, 0, 0, 5));
    /* done: the status is not read */
    memcpy(host + EDGE, ended, sizeof ended);
    host[EDGE + CFU_HOST_FIRST_AT] = 0;
    r = cfu_host_report(AT(host));
    CHECK(r.number == CFU_SERVED && r.ending == CFU_DONE && r.status == 0);
    a = cfu_host_step(AT(host), bundle, length, replies + EDGE, 0, AT(longer));
    CHECK(a.number == CFU_SERVED && a.length == 0 && SAME(host, 0xA5, 7));
    EDGES(host), EDGES(longer);
}

/* ---- A reply that comes again (document 02, A4) ---- */

/* One offer, for component 2, and its body of four records of a byte. */
static const uint8_t FOUR_BLOCKS[] = {1, 1, 0, 0, 0, 0, 0, 0,
                                      0, 0, 2, 0, 0, 2, 0, 1, 0, 0, 0, 0, 2, 0, 0x42, 0, 32, 0, 0, 0, 24, 0, 0, 0,
                                      0, 0, 0, 0, 1, 0xA0, 1, 0, 0, 0, 1, 0xA1, 2, 0, 0, 0, 1, 0xA2, 3, 0, 0, 0, 1, 0xA3};

/* A step with this reply, by both calls: they answer the same length, and leave the same record and packet. */
static uint32_t steps(const uint8_t *reply, size_t reply_len)
{
    BUFFER(other, CFU_LONG_SIZE);
    CLEAR(longer, 0x33);
    CLEAR(other, 0x44);
    memcpy(other_host, host, sizeof host);
    cfu_step a = cfu_host_step(AT(host), FOUR_BLOCKS, sizeof FOUR_BLOCKS, reply, reply_len, AT(longer));
    cfu_step b = cfu_host_step_checked(AT(other_host), AT(contents), FOUR_BLOCKS, sizeof FOUR_BLOCKS, reply, reply_len, AT(other));
    EDGES(host), EDGES(other_host), EDGES(contents), EDGES(longer), EDGES(other);
    CHECK(a.number == CFU_SERVED && b.number == CFU_SERVED && a.entry == 0 && b.entry == 0 && a.length == b.length);
    CHECK(memcmp(host, other_host, sizeof host) == 0 && memcmp(longer + EDGE, other + EDGE, CFU_LONG_SIZE) == 0);
    return a.length;
}

static uint32_t steps_by(uint16_t sequence, uint8_t status)
{
    CHECK(cfu_build_content_reply(sequence, status, AT(shorter)) == CFU_SERVED);
    return steps(AT(shorter));
}

/* How far the host is, and what it has counted, while nothing is completed. */
static int is_at(uint32_t ending, uint32_t packets)
{
    cfu_report r = cfu_host_report(AT(host));
    return r.number == CFU_SERVED && r.ending == ending && r.status == 0 && r.completed == 0 && r.mask == 0 && r.packets == packets && r.passes == 1;
}

/* The host awaits the reply to a block of the first pass, counted from 0, which is packet 4 and so on; passed: a reply was passed over. */
static int awaits(uint8_t block, uint8_t passed)
{
    return SAME(host, 0xA5, 5, 0, 0, 0, 0, block, 0, 0, 0, 0, 0, 0, 0, (uint8_t)(4 + block), 0, 0, 0, 1, 0, 0, 0, 0, 0, passed) && is_at(CFU_RUNNING, 4u + block);
}

/* Brings the host to a block, each reply coming once. */
static void bring_to(uint8_t block)
{
    CHECK(cfu_bundle_check(FOUR_BLOCKS, sizeof FOUR_BLOCKS, AT(contents)).number == CFU_SERVED);
    CHECK(cfu_host_fresh(AT(host), 0xA5) == CFU_SERVED);
    CHECK(cfu_build_offer_reply(0xA5, 0, CFU_OFFER_ACCEPT, AT(shorter)) == CFU_SERVED);
    CHECK(steps(shorter + EDGE, 0) == CFU_SHORT_SIZE);
    CHECK(steps(AT(shorter)) == CFU_SHORT_SIZE && steps(AT(shorter)) == CFU_SHORT_SIZE && steps(AT(shorter)) == CFU_LONG_SIZE);
    for (uint8_t i = 0; i < block; i++) {
        CHECK(awaits(i, 0));
        CHECK(steps_by(i, CFU_SUCCESS) == CFU_LONG_SIZE);
    }
    CHECK(awaits(block, 0));
}

/* The host ends by H2 with this reply, and has counted as many packets as before. */
static void ends_by(uint16_t sequence, uint8_t status)
{
    const uint32_t packets = cfu_host_report(AT(host)).packets;
    CHECK(steps_by(sequence, status) == 0 && FILLED(longer, 0) && is_at(CFU_H2, packets));
    CHECK(steps_by(sequence, status) == 0 && is_at(CFU_H2, packets));
}

static void host_copies(void)
{
    /* while the first block is awaited nothing is passed over: neither its own sequence less one nor what was taken before */
    bring_to(0);
    ends_by(0xFFFF, CFU_SUCCESS);
    bring_to(0);
    CHECK(steps_by(0, CFU_SUCCESS) == CFU_LONG_SIZE && awaits(1, 0));

    for (uint8_t block = 1; block < 4; block++) {
        /* the reply just taken, again: nothing to send, the host runs, nothing is counted, the contents stay */
        bring_to(block);
        memcpy(new_contents, contents, sizeof contents);
        CHECK(steps_by((uint16_t)(block - 1), CFU_SUCCESS) == 0 && FILLED(longer, 0));
        CHECK(awaits(block, 1) && memcmp(new_contents, contents, sizeof contents) == 0);
        /* a second one is H2 */
        ends_by((uint16_t)(block - 1), CFU_SUCCESS);
        /* its own reply then takes the host on, and the next block may have one passed over again */
        bring_to(block);
        CHECK(steps_by((uint16_t)(block - 1), CFU_SUCCESS) == 0 && awaits(block, 1));
        CHECK(steps_by(block, CFU_SUCCESS) == (block < 3 ? CFU_LONG_SIZE : CFU_SHORT_SIZE));
        CHECK(block == 3 || (awaits((uint8_t)(block + 1), 0) && steps_by(block, CFU_SUCCESS) == 0 && awaits((uint8_t)(block + 1), 1)));
        /* or its own refusal ends it */
        bring_to(block);
        CHECK(steps_by((uint16_t)(block - 1), CFU_SUCCESS) == 0 && steps_by(block, CFU_ERROR_INVALID_ADDR) == 0);
        cfu_report r = cfu_host_report(AT(host));
        CHECK(r.ending == CFU_H1 && r.status == CFU_ERROR_INVALID_ADDR && r.packets == 4u + block && r.completed == 0);

        /* equal is by sequence and status, whatever the reserved bytes have */
        bring_to(block);
        const uint8_t odd[CFU_SHORT_SIZE] = {(uint8_t)(block - 1), 0, 0x99, 0x99, CFU_SUCCESS, 0x99, 0x99, 0x99, 0x99, 0x99, 0x99, 0x99, 0x99, 0x99, 0x99, 0x99};
        CHECK(steps(odd, sizeof odd) == 0 && awaits(block, 1));
        /* not one of another status, as a device gives to a doubled first block, nor of another sequence, nor of another length */
        bring_to(block);
        ends_by((uint16_t)(block - 1), CFU_ERROR_INVALID);
        bring_to(block);
        ends_by((uint16_t)(block - 2), CFU_SUCCESS);
        bring_to(block);
        ends_by((uint16_t)(block + 1), CFU_SUCCESS);
        bring_to(block);
        ends_by((uint16_t)(block - 1 + 0x100), CFU_SUCCESS);
        bring_to(block);
        CHECK(steps(odd, sizeof odd - 1) == 0 && is_at(CFU_H2, 4u + block));
        /* the note in the record alone decides */
        bring_to(block);
        host[EDGE + CFU_HOST_PASSED_AT] = 1;
        ends_by((uint16_t)(block - 1), CFU_SUCCESS);
    }

    /* each block's reply twice, but the last's: as many packets as without, and done */
    bring_to(0);
    for (uint8_t block = 0; block < 3; block++) {
        CHECK(steps_by(block, CFU_SUCCESS) == CFU_LONG_SIZE && awaits((uint8_t)(block + 1), 0));
        CHECK(longer[EDGE + 2] == block + 1 && longer[EDGE + CFU_DATA_AT] == 0xA1 + block);
        CHECK(steps_by(block, CFU_SUCCESS) == 0 && awaits((uint8_t)(block + 1), 1));
    }
    CHECK(steps_by(3, CFU_SUCCESS) == CFU_SHORT_SIZE && SAME(longer, CFU_INFO_END_OFFER_LIST, 0, 0xFF, 0xA5));
    CHECK(SAME(host, 0xA5, 6, 0, 0, 0, 0, 0, 0, 0, 0, 1, 0, 0, 0, 8, 0, 0, 0, 1, 0, 0, 0, 0, 1));
    memcpy(third_host, host, sizeof host);
    CHECK(cfu_build_offer_reply(0xA5, 0, CFU_OFFER_ACCEPT, AT(shorter)) == CFU_SERVED);
    CHECK(steps(AT(shorter)) == 0);
    cfu_report r = cfu_host_report(AT(host));
    CHECK(r.ending == CFU_DONE && r.completed == 1 && r.mask == 1 && r.packets == 8 && r.passes == 1);
    /* the last block's reply twice is H2, and so is what a device answers to a doubled last block */
    for (unsigned i = 0; i < 2; i++) {
        memcpy(host, third_host, sizeof host);
        CHECK(steps_by(3, i == 0 ? CFU_SUCCESS : CFU_ERROR_NO_OFFER) == 0);
        r = cfu_host_report(AT(host));
        CHECK(r.ending == CFU_H2 && r.completed == 1 && r.mask == 1 && r.packets == 8 && r.passes == 1);
    }

    /* which read as an offer reply is a SKIP for token 0 */
    cfu_offer_reply q = cfu_read_offer_reply(AT(shorter));
    CHECK(q.number == CFU_SERVED && q.token == 0 && q.reason == 0 && q.status == CFU_OFFER_SKIP);

    /* where the host does not send the note is not looked at, and the step writes it as zero */
    CHECK(cfu_host_fresh(AT(host), 0xA5) == CFU_SERVED);
    host[EDGE + CFU_HOST_PASSED_AT] = 1;
    CHECK(steps(shorter + EDGE, 0) == CFU_SHORT_SIZE && SAME(host, 0xA5, 1, 0, 0, 0, 0, 0, 0, 0, 0, 0, 0, 0, 0, 1));
    /* a record of the length that it had before A4 */
    enum { OLD_SIZE = 24 };
    CHECK(cfu_host_fresh(host + EDGE, OLD_SIZE, 0xA5) == CFU_C1);
    CHECK(cfu_host_step(host + EDGE, OLD_SIZE, FOUR_BLOCKS, sizeof FOUR_BLOCKS, shorter + EDGE, 0, AT(longer)).number == CFU_C1);
    CHECK(cfu_host_step_checked(host + EDGE, OLD_SIZE, AT(contents), FOUR_BLOCKS, sizeof FOUR_BLOCKS, shorter + EDGE, 0, AT(longer)).number == CFU_C1);
    CHECK(cfu_host_report(host + EDGE, OLD_SIZE).number == CFU_C1);
    EDGES(host);
}

/* E13 by the step that checks the bundle each time and by the one that does not, side by side. */
static void host_calls(const uint8_t *bundle, size_t length)
{
    CLEAR(contents, 0x33);
    cfu_check k = cfu_bundle_check(bundle, length, AT(contents));
    CHECK(k.number == CFU_SERVED && k.entry == 0 && k.count == 2);
    static const uint8_t two[CFU_CONTENTS_BODIES_AT + 2 * CFU_BODY_SIZE] = { 0, 0, 2, 56, 0, 0, 0, 74, 0, 0, 0, 2, 0, 0, 0, 130, 0, 0, 0, 74, 0, 0, 0, 2 };
    CHECK(new_check(contents, two, sizeof two));
    EDGES(contents);
    memcpy(new_contents, contents, sizeof contents);
    bench();
    CLEAR(host, 0x33);
    CHECK(cfu_host_fresh(AT(host), 0xA5) == CFU_SERVED);
    CHECK(SAME(host, 0xA5));
    memcpy(other_host, host, sizeof host);
    memcpy(third_host, host, sizeof host);
    CLEAR(replies, 0);
    size_t reply_len = 0;
    unsigned packets = 0;
    for (;;) {
        BUFFER(other, CFU_LONG_SIZE);
        CLEAR(longer, 0x33);
        CLEAR(other, 0x44);
        cfu_step a = cfu_host_step(AT(host), bundle, length, replies + EDGE, reply_len, AT(longer));
        cfu_step b = cfu_host_step_checked(AT(other_host), AT(contents), bundle, length, replies + EDGE, reply_len, AT(other));
        EDGES(host), EDGES(other_host), EDGES(contents), EDGES(longer), EDGES(other);
        CHECK(a.number == CFU_SERVED && b.number == CFU_SERVED && a.length == b.length && a.entry == 0 && b.entry == 0);
        CHECK(memcmp(host, other_host, sizeof host) == 0 && memcmp(longer + EDGE, other + EDGE, CFU_LONG_SIZE) == 0);
        /* the same step over the contents of a new check: the place of the record in hand is found again */
        BUFFER(third, CFU_LONG_SIZE);
        BUFFER(third_contents, CFU_CONTENTS_SIZE);
        memcpy(third_contents, new_contents, sizeof third_contents);
        CLEAR(third, 0x44);
        cfu_step c = cfu_host_step_checked(AT(third_host), AT(third_contents), bundle, length, replies + EDGE, reply_len, AT(third));
        EDGES(third_host), EDGES(third_contents), EDGES(third);
        CHECK(c.number == CFU_SERVED && c.length == a.length && memcmp(host, third_host, sizeof host) == 0);
        CHECK(memcmp(longer + EDGE, third + EDGE, CFU_LONG_SIZE) == 0);
        if (a.length == 0 || packets == 100)
            break;
        packets++;
        if (a.length == CFU_SHORT_SIZE)
            offers(longer + EDGE, a.length, CFU_SERVED, 1);
        else
            sends(longer + EDGE, a.length, CFU_SERVED, 1);
        reply_len = CFU_SHORT_SIZE;
    }
    cfu_report r = cfu_host_report(AT(host));
    CHECK(packets == 13 && r.number == CFU_SERVED && r.completed == 2 && r.mask == 3 && r.packets == 13 && r.passes == 2);
    CHECK(r.ending == CFU_DONE && r.status == 0);

    host_bytes(bundle, length);

    /* N1: bytes that are no record */
    CLEAR(host, 0xFF);
    CHECK(cfu_host_step(AT(host), bundle, length, replies + EDGE, CFU_SHORT_SIZE, AT(longer)).number == CFU_N1);
    CHECK(FILLED(host, 0xFF) && FILLED(longer, 0));
    CHECK(cfu_host_step_checked(AT(host), AT(contents), bundle, length, replies + EDGE, CFU_SHORT_SIZE, AT(longer)).number == CFU_N1);
    CHECK(cfu_host_report(AT(host)).packets == 0xFFFFFFFF);

    /* H2 to H4 */
    CHECK(cfu_host_fresh(AT(host), 0xA5) == CFU_SERVED);
    CHECK(cfu_host_step(AT(host), bundle, length, replies + EDGE, 0, AT(longer)).length == CFU_SHORT_SIZE);
    CHECK(cfu_host_report(AT(host)).ending == CFU_RUNNING);
    CHECK(cfu_host_step(AT(host), bundle, length, replies + EDGE, CFU_SHORT_SIZE - 1, AT(longer)).length == 0);
    CHECK(cfu_host_report(AT(host)).ending == CFU_H2);
    CHECK(cfu_host_fresh(AT(host), 0xA5) == CFU_SERVED);
    CHECK(cfu_host_step(AT(host), bundle, length, replies + EDGE, 0, AT(longer)).length == CFU_SHORT_SIZE);
    CHECK(cfu_build_offer_reply(0xA5, 0, CFU_OFFER_READY, AT(shorter)) == CFU_SERVED);
    CHECK(cfu_host_step(AT(host), bundle, length, AT(shorter), AT(longer)).length == 0);
    CHECK(cfu_host_report(AT(host)).ending == CFU_H3);
    CHECK(cfu_host_fresh(AT(host), 0xA5) == CFU_SERVED);
    CHECK(cfu_host_step(AT(host), bundle, length, replies + EDGE, 0, AT(longer)).length == CFU_SHORT_SIZE);
    CHECK(cfu_build_offer_reply(0xA5, 0, CFU_OFFER_ACCEPT, AT(shorter)) == CFU_SERVED);
    CHECK(cfu_host_step(AT(host), bundle, length, AT(shorter), AT(longer)).length == CFU_SHORT_SIZE);
    CHECK(cfu_host_step(AT(host), bundle, length, AT(shorter), AT(longer)).length == CFU_SHORT_SIZE);
    for (unsigned busy = 1; busy <= 9; busy++) {
        CHECK(cfu_host_report(AT(host)).ending == CFU_RUNNING);
        CHECK(cfu_build_offer_reply(0xA5, 0, CFU_OFFER_BUSY, AT(shorter)) == CFU_SERVED);
        CHECK(cfu_host_step(AT(host), bundle, length, AT(shorter), AT(longer)).length == (busy < 9 ? CFU_SHORT_SIZE : 0));
        if (busy == 9)
            break;
        CHECK(cfu_build_offer_reply(0xA5, 0, CFU_OFFER_READY, AT(shorter)) == CFU_SERVED);
        CHECK(cfu_host_step(AT(host), bundle, length, AT(shorter), AT(longer)).length == CFU_SHORT_SIZE);
    }
    r = cfu_host_report(AT(host));
    CHECK(r.ending == CFU_H4 && r.packets == 3 + 8 + 8 && r.passes == 1 && r.completed == 0);

    /* a bundle cut by a byte: B7 at the last entry, in every call that judges it */
    CHECK(cfu_host_fresh(AT(host), 0xA5) == CFU_SERVED);
    cfu_step a = cfu_host_step(AT(host), bundle, length - 1, replies + EDGE, 0, AT(longer));
    CHECK(a.number == CFU_B7 && a.entry == 2 && a.length == 0 && FILLED(longer, 0) && SAME(host, 0xA5));
    k = cfu_bundle_check(bundle, length - 1, AT(contents));
    CHECK(k.number == CFU_B7 && k.entry == 2 && k.count == 0 && new_check(contents, (const uint8_t[]){ 7, 2 }, 2));
    CLEAR(longer, 0x33);
    a = cfu_host_step_checked(AT(host), AT(contents), bundle, length - 1, replies + EDGE, 0, AT(longer));
    CHECK(a.number == CFU_B7 && a.entry == 2 && a.length == 0 && FILLED(longer, 0) && SAME(host, 0xA5) && new_check(contents, (const uint8_t[]){ 7, 2 }, 2));

    /* contents that no check leaves: a row over 8, and no row with a count that is not 1 to CFU_OFFER_LIMIT */
    contents[EDGE] = 9;
    CHECK(cfu_host_step_checked(AT(host), AT(contents), bundle, length, replies + EDGE, 0, AT(longer)).number == CFU_C1);
    contents[EDGE] = 0;
    CHECK(cfu_host_step_checked(AT(host), AT(contents), bundle, length, replies + EDGE, 0, AT(longer)).number == CFU_C1);

    /* C1 and C3 */
    CHECK(cfu_bundle_check(bundle, length, contents + EDGE, CFU_CONTENTS_SIZE - 1).number == CFU_C3);
    CHECK(cfu_host_fresh(host + EDGE, CFU_HOST_SIZE - 1, 0xA5) == CFU_C1);
    CHECK(cfu_host_step(host + EDGE, CFU_HOST_SIZE + 1, bundle, length, replies + EDGE, 0, AT(longer)).number == CFU_C1);
    CHECK(cfu_host_step(AT(host), bundle, length, replies + EDGE, 0, longer + EDGE, CFU_SHORT_SIZE).number == CFU_C3);
    CHECK(cfu_host_step_checked(host + EDGE, 0, AT(contents), bundle, length, replies + EDGE, 0, AT(longer)).number == CFU_C1);
    CHECK(cfu_host_step_checked(AT(host), contents + EDGE, CFU_CONTENTS_SIZE - 1, bundle, length, replies + EDGE, 0, AT(longer)).number == CFU_C1);
    CHECK(cfu_host_step_checked(AT(host), AT(new_contents), bundle, length, replies + EDGE, 0, longer + EDGE, CFU_LONG_SIZE - 1).number == CFU_C3);
    CHECK(cfu_host_report(host + EDGE, CFU_HOST_SIZE - 1).number == CFU_C1);
}

/* What is lent to the writer: a list, images and an output, each with its edges right around as many bytes as are lent; and the first two as they were given. */
enum { ENTRY = CFU_BUNDLE_ENTRY_SIZE, OFFSET_AT = CFU_SHORT_SIZE, LENGTH_AT = OFFSET_AT + 4 };
enum { MOST_LIST = (CFU_OFFER_LIMIT + 1) * ENTRY, MOST_IMAGES = CFU_STAGING_LIMIT + 1 };
static BUFFER(entries, MOST_LIST);
static BUFFER(images, MOST_IMAGES);
static BUFFER(out, CFU_BUNDLE_LIMIT);
static uint8_t list_given[MOST_LIST], images_given[MOST_IMAGES];
static size_t list_len, images_len;

/* CRC-16/XMODEM, bit after bit. */
static uint16_t crc_of(const uint8_t *data, size_t length)
{
    uint16_t crc = 0;
    for (size_t i = 0; i < length; i++) {
        crc ^= (uint16_t)(data[i] << 8);
        for (unsigned bit = 0; bit < 8; bit++)
            crc = (uint16_t)(crc & 0x8000 ? (crc << 1) ^ 0x1021 : crc << 1);
    }
    return crc;
}

/* The given list and images into an output of so many bytes 0x33: what is answered, and which bytes of the output stay as they are. */
static void writes(size_t room, uint32_t number, uint32_t entry, uint32_t length)
{
    clear(entries, list_len + 2 * EDGE, 0);
    clear(images, images_len + 2 * EDGE, 0);
    clear(out, room + 2 * EDGE, 0x33);
    memcpy(entries + EDGE, list_given, list_len);
    memcpy(images + EDGE, images_given, images_len);
    cfu_written w = cfu_bundle_write(entries + EDGE, list_len, images + EDGE, images_len, out + EDGE, room);
    CHECK(w.number == number && w.entry == entry && w.length == length);
    CHECK(edges(entries, list_len + 2 * EDGE) && edges(images, images_len + 2 * EDGE) && edges(out, room + 2 * EDGE));
    CHECK(memcmp(entries + EDGE, list_given, list_len) == 0 && memcmp(images + EDGE, images_given, images_len) == 0);
    CHECK(filled(out + length, room - length, 0x33));
}

static void refused_write(uint32_t number, uint32_t entry)
{
    writes(CFU_BUNDLE_LIMIT, number, entry, 0);
}

#define WRITTEN(...) (memcmp(out + EDGE, (const uint8_t[]){__VA_ARGS__}, sizeof((const uint8_t[]){__VA_ARGS__})) == 0)

static void put_four(uint8_t *place, uint32_t value)
{
    for (unsigned i = 0; i < 4; i++)
        place[i] = (uint8_t)(value >> 8 * i);
}

/* Entry i of the list, counted from 0: an offer of this id and of version 1.minor.0 that B5 allows, and where its image stands. */
static void listed(unsigned i, uint8_t id, uint8_t minor, uint32_t offset, uint32_t length)
{
    const uint8_t offer[CFU_SHORT_SIZE] = {0, 0, id, 0, 0, minor, 0, 1, 0, 0, 0, 0, 2, 0, 0x42, 0};
    memcpy(list_given + ENTRY * i, offer, sizeof offer);
    put_four(list_given + ENTRY * i + OFFSET_AT, offset);
    put_four(list_given + ENTRY * i + LENGTH_AT, length);
}

/* Two offers, for component 1 at 1.3.0 and for component 2 at 1.2.0, with images of 8 bytes that stand in the other order and apart. */
static void two_offers(void)
{
    static const uint8_t lent[] = {0xAA, 0, 2, 0, 1, 2, 0xFF, 0x0B, 0x21, 0xBB, 0, 3, 0, 1, 1, 7, 0x9A, 0x34};
    memcpy(images_given, lent, sizeof lent);
    images_len = sizeof lent;
    listed(0, 1, 3, 10, 8);
    listed(1, 2, 2, 1, 8);
    list_len = 2 * ENTRY;
}

/* With another value at a place of the list the two offers are refused. */
static void wrong_list(unsigned place, uint8_t value, uint32_t number, uint32_t entry)
{
    two_offers();
    list_given[place] = value;
    refused_write(number, entry);
}

/* One offer, with the image 1.2.0 of component 2 that has these bytes between its id and its CRC: so many 0xFF, and then so many 9. */
static void one_image(size_t erased, size_t nines)
{
    const size_t end = 5 + erased + nines;
    memcpy(images_given, (const uint8_t[]){0, 2, 0, 1, 2}, 5);
    memset(images_given + 5, 0xFF, erased);
    memset(images_given + 5 + erased, 9, nines);
    const uint16_t crc = crc_of(images_given, end);
    images_given[end] = (uint8_t)(crc >> 8);
    images_given[end + 1] = (uint8_t)crc;
    images_len = end + 2;
    listed(0, 2, 2, 0, (uint32_t)images_len);
    list_len = ENTRY;
}

/* The check accepts the output's first bytes, as a bundle of one offer with so many records. */
static void accepted(uint32_t length, uint8_t records)
{
    CLEAR(contents, 0x33);
    cfu_check k = cfu_bundle_check(out + EDGE, length, AT(contents));
    CHECK(k.number == CFU_SERVED && k.entry == 0 && k.count == 1);
    CHECK(contents[EDGE + CFU_CONTENTS_BODIES_AT + CFU_BODY_RECORDS_AT] == records);
    EDGES(contents);
}

/* Rows W1 to W6, each with the entry that it names. */
static void writer_rows(void)
{
    /* W1: no entry, one byte less or more than a whole one, eight */
    two_offers();
    static const size_t lengths[] = {0, 1, ENTRY - 1, ENTRY + 1, 2 * ENTRY - 1, CFU_OFFER_LIMIT * ENTRY + 1, MOST_LIST};
    for (unsigned i = 0; i < sizeof lengths / sizeof *lengths; i++) {
        list_len = lengths[i];
        refused_write(CFU_W1, 0);
    }

    /* W2: each byte that B5 looks at, in either entry */
    for (unsigned i = 0; i < 2; i++) {
        wrong_list(ENTRY * i, 1, CFU_W2, i + 1);
        wrong_list(ENTRY * i + 1, 0x40, CFU_W2, i + 1);
        wrong_list(ENTRY * i + 2, 0, CFU_W2, i + 1);
        wrong_list(ENTRY * i + 2, CFU_ID_LIMIT + 1, CFU_W2, i + 1);
        wrong_list(ENTRY * i + 3, 0xA5, CFU_W2, i + 1);
        wrong_list(ENTRY * i + 12, 0x12, CFU_W2, i + 1);
        wrong_list(ENTRY * i + 13, 1, CFU_W2, i + 1);
    }

    /* W3: the later one */
    wrong_list(ENTRY + 2, 1, CFU_W3, 2);
    wrong_list(2, 2, CFU_W3, 2);

    /* W4: under 8 bytes, past the end by one byte and by a sum that 32 bits do not hold, over 65,536 bytes that are all lent */
    wrong_list(LENGTH_AT, 7, CFU_W4, 1);
    wrong_list(ENTRY + LENGTH_AT, 0, CFU_W4, 2);
    wrong_list(OFFSET_AT, 11, CFU_W4, 1);
    wrong_list(LENGTH_AT, 9, CFU_W4, 1);
    two_offers();
    images_len--;
    refused_write(CFU_W4, 1);
    two_offers();
    put_four(list_given + ENTRY + OFFSET_AT, 0xFFFFFFF9);
    refused_write(CFU_W4, 2);
    two_offers();
    put_four(list_given + ENTRY + LENGTH_AT, 0xFFFFFFFF);
    refused_write(CFU_W4, 2);
    two_offers();
    images_len = CFU_STAGING_LIMIT + 1;
    put_four(list_given + OFFSET_AT, 0);
    put_four(list_given + LENGTH_AT, CFU_STAGING_LIMIT + 1);
    refused_write(CFU_W4, 1);

    /* W5: each CRC byte, and a byte before them */
    for (unsigned i = 5; i < 8; i++) {
        two_offers();
        images_given[10 + i] ^= 1;
        refused_write(CFU_W5, 1);
        two_offers();
        images_given[1 + i] ^= 0x80;
        refused_write(CFU_W5, 2);
    }

    /* W6: another version in an offer, its variant alone too, or another id; and in an image, whose CRC is right */
    for (unsigned i = 4; i < 8; i++) {
        wrong_list(i, 9, CFU_W6, 1);
        wrong_list(ENTRY + i, 9, CFU_W6, 2);
    }
    wrong_list(2, 3, CFU_W6, 1);
    two_offers();
    memcpy(images_given + 10, (const uint8_t[]){1, 3, 0, 1, 1, 7, 0xDF, 0x94}, 8);
    refused_write(CFU_W6, 1);
    memcpy(images_given + 10, (const uint8_t[]){0, 3, 0, 1, 3, 7, 0xFC, 0x56}, 8);
    refused_write(CFU_W6, 1);

    /* each row is tried over the whole list before the next: entry 1 breaks W6, then W5, W4, and entry 2 the row before each */
    two_offers();
    list_given[4] = 9;
    images_given[8] ^= 1;
    refused_write(CFU_W5, 2);
    images_given[17] ^= 1;
    put_four(list_given + ENTRY + OFFSET_AT, 11);
    refused_write(CFU_W4, 2);
    put_four(list_given + LENGTH_AT, 7);
    list_given[ENTRY + 2] = 1;
    refused_write(CFU_W3, 2);
    list_given[ENTRY + 3] = 1;
    refused_write(CFU_W2, 2);
    list_len++;
    refused_write(CFU_W1, 0);
}

static void writer_calls(void)
{
    /* one offer with an image of 8 bytes: 50 bytes */
    two_offers();
    list_len = ENTRY;
    enum { ONE = 50, TWO = 92 };
    for (size_t room = ONE; room <= ONE + 3; room++) {
        writes(room, CFU_SERVED, 0, ONE);
        CHECK(WRITTEN(1, 1, 0, 0, 0, 0, 0, 0,
                      0, 0, 1, 0, 0, 3, 0, 1, 0, 0, 0, 0, 2, 0, 0x42, 0, 32, 0, 0, 0, 18, 0, 0, 0,
                      0, 0, 0, 0, 6, 0, 3, 0, 1, 1, 7, 6, 0, 0, 0, 2, 0x9A, 0x34));
    }
    accepted(ONE, 2);
    static const uint8_t one[CFU_CONTENTS_BODIES_AT + CFU_BODY_SIZE] = { 0, 0, 1, 32, 0, 0, 0, 18, 0, 0, 0, 2 };
    CHECK(new_check(contents, one, sizeof one));
    writes(CFU_BUNDLE_LIMIT, CFU_SERVED, 0, ONE);
    writes(ONE - 1, CFU_W8, 0, 0);
    writes(0, CFU_W8, 0, 0);

    /* two offers in the order of the list, not of the images; of an offer all 16 bytes are kept */
    two_offers();
    memcpy(list_given + 8, (const uint8_t[]){2, 2, 0, 1}, 4);
    writes(TWO, CFU_SERVED, 0, TWO);
    CHECK(WRITTEN(2, 1, 0, 0, 0, 0, 0, 0,
                  0, 0, 1, 0, 0, 3, 0, 1, 2, 2, 0, 1, 2, 0, 0x42, 0, 56, 0, 0, 0, 18, 0, 0, 0,
                  0, 0, 2, 0, 0, 2, 0, 1, 0, 0, 0, 0, 2, 0, 0x42, 0, 74, 0, 0, 0, 18, 0, 0, 0,
                  0, 0, 0, 0, 6, 0, 3, 0, 1, 1, 7, 6, 0, 0, 0, 2, 0x9A, 0x34,
                  0, 0, 0, 0, 6, 0, 2, 0, 1, 2, 0xFF, 6, 0, 0, 0, 2, 0x0B, 0x21));
    writes(TWO - 1, CFU_W8, 0, 0);

    /* a run of 52 bytes 0xFF is left out before the CRC and before another byte; one of 51 is not, and what is left is cut at 52 */
    one_image(52, 0);
    writes(49, CFU_SERVED, 0, 49);
    CHECK(WRITTEN(1, 1, 0, 0, 0, 0, 0, 0,
                  0, 0, 2, 0, 0, 2, 0, 1, 0, 0, 0, 0, 2, 0, 0x42, 0, 32, 0, 0, 0, 17, 0, 0, 0,
                  0, 0, 0, 0, 5, 0, 2, 0, 1, 2, 57, 0, 0, 0, 2, 0x95, 0x64));
    accepted(49, 2);
    one_image(52, 1);
    writes(55, CFU_SERVED, 0, 55);
    CHECK(memcmp(out + EDGE + 32, (const uint8_t[]){0, 0, 0, 0, 5, 0, 2, 0, 1, 2, 57, 0, 0, 0, 1, 9, 58, 0, 0, 0, 2, 0x26, 0x35}, 23) == 0);
    accepted(55, 3);
    one_image(51, 0);
    writes(105, CFU_SERVED, 0, 105);
    CHECK(memcmp(out + EDGE + 32, (const uint8_t[]){0, 0, 0, 0, 52, 0, 2, 0, 1, 2, 0xFF}, 11) == 0);
    CHECK(memcmp(out + EDGE + 32 + 57, (const uint8_t[]){52, 0, 0, 0, 4, 0xFF, 0xFF, 0xFF, 0xFF, 56, 0, 0, 0, 2, 0x15, 0xC9}, 16) == 0);
    accepted(105, 3);

    /* the largest image: all 0xFF it takes a small bundle, and without a run W7, before W8; of 59,750 bytes without a run it fits, and not of one more */
    one_image(CFU_STAGING_LIMIT - 7, 0);
    writes(49, CFU_SERVED, 0, 49);
    accepted(49, 2);
    one_image(0, CFU_STAGING_LIMIT - 7);
    CHECK(images_len == CFU_STAGING_LIMIT);
    refused_write(CFU_W7, 0);
    writes(0, CFU_W7, 0, 0);
    one_image(0, 59750 - 7);
    writes(CFU_BUNDLE_LIMIT, CFU_SERVED, 0, 65532);
    CHECK(cfu_bundle_check(out + EDGE, 65532, AT(contents)).number == CFU_SERVED);
    writes(65531, CFU_W8, 0, 0);
    one_image(0, 59751 - 7);
    refused_write(CFU_W7, 0);

    writer_rows();
}

/* ---- One part of lent bytes ---- */

static int is_version(cfu_version v, uint8_t major, uint16_t minor, uint8_t variant)
{
    return v.major == major && v.minor == minor && v.variant == variant;
}

/* A refused call tells of no component. */
static int no_component(cfu_component c, uint32_t number)
{
    return c.number == number && c.id == 0 && is_version(c.running, 0, 0, 0) && c.base == 0 && c.length == 0 && is_version(c.floor, 0, 0, 0) &&
           c.pending == 0 && is_version(c.staged, 0, 0, 0);
}

static int is_entry(cfu_entry e, uint32_t number, uint32_t entry, uint32_t offset, uint32_t length, uint32_t records)
{
    return e.number == number && e.entry == entry && e.offset == offset && e.length == length && e.records == records;
}

static void list_calls(void)
{
    const cfu_listed one = {1, {1, 2, 0}, 0, 64, {0, 0, 0}}, two = {2, {1, 1, 0}, 64, 64, {0, 0, 0}},
                     odd = {0xFF, {0x11, 0x2233, 0x44}, 0x55667788, 0x99AABBCC, {0xDD, 0xEEF0, 0x12}};
    /* the bench's list, in any order of the places */
    CLEAR(list, 0);
    CHECK(cfu_list_put(AT(list), 1, two) == CFU_SERVED);
    CHECK(cfu_list_put(AT(list), 0, one) == CFU_SERVED);
    CHECK(memcmp(list + EDGE, BENCH, sizeof BENCH) == 0);
    EDGES(list);
    /* nothing of the component is judged, and the other places stay */
    CLEAR(list, 0x33);
    CHECK(cfu_list_put(AT(list), CFU_COMPONENT_LIMIT - 1, odd) == CFU_SERVED);
    const uint8_t last[CFU_LISTED_SIZE] = {0xFF, 0x44, 0x33, 0x22, 0x11, 0x88, 0x77, 0x66, 0x55, 0xCC, 0xBB, 0xAA, 0x99, 0x12, 0xF0, 0xEE, 0xDD};
    CHECK(memcmp(list + EDGE + CFU_LIST_SIZE - CFU_LISTED_SIZE, last, sizeof last) == 0);
    for (size_t i = 0; i < CFU_LIST_SIZE - CFU_LISTED_SIZE; i++)
        CHECK(list[EDGE + i] == 0x33);
    EDGES(list);
    /* C2 before C4, and the list stays */
    CLEAR(list, 0x33);
    CHECK(cfu_list_put(AT(list), CFU_COMPONENT_LIMIT, one) == CFU_C4);
    CHECK(cfu_list_put(AT(list), 0xFFFFFFFF, one) == CFU_C4);
    CHECK(cfu_list_put(list + EDGE, CFU_LIST_SIZE - 1, 0, one) == CFU_C2);
    CHECK(cfu_list_put(list + EDGE, CFU_LIST_SIZE - 1, CFU_COMPONENT_LIMIT, one) == CFU_C2);
    CHECK(cfu_list_put(list + EDGE, 0, 0, one) == CFU_C2);
    CHECK(FILLED(list, 0x33));
    EDGES(list);
}

static void component_calls(void)
{
    bench();
    cfu_component c = cfu_device_component(AT(device), 1);
    CHECK(c.number == CFU_SERVED && c.id == 2 && is_version(c.running, 1, 1, 0) && c.base == 64 && c.length == 64 && c.pending == 0);
    CHECK(is_version(c.floor, 0, 0, 0) && is_version(c.staged, 0, 0, 0));
    /* a staged version, and what is not looked at where none is staged */
    const uint8_t pending[] = {1, 0, 3, 0, 1};
    memcpy(device + EDGE + STAGED(0), pending, sizeof pending);
    memset(device + EDGE + STAGED(1) + 1, 0x99, 4);
    c = cfu_device_component(AT(device), 0);
    CHECK(c.number == CFU_SERVED && c.id == 1 && is_version(c.running, 1, 2, 0) && c.base == 0 && c.length == 64 && c.pending == 1);
    CHECK(is_version(c.staged, 1, 3, 0));
    c = cfu_device_component(AT(device), 1);
    CHECK(c.number == CFU_SERVED && c.pending == 0 && is_version(c.staged, 0, 0, 0));
    /* a floor of each component, its major and its minor with a value of their own, above what runs and below it */
    memcpy(device + EDGE + FLOOR(0), (const uint8_t[]){0, 2, 1, 0}, 4);
    memcpy(device + EDGE + FLOOR(1), (const uint8_t[]){0, 0x44, 0x55, 0x66}, 4);
    CHECK(is_version(cfu_device_component(AT(device), 0).floor, 0, 0x0102, 0) && is_version(cfu_device_component(AT(device), 1).floor, 0x66, 0x5544, 0));
    /* C1, D1, C4, in this order */
    CHECK(no_component(cfu_device_component(AT(device), 2), CFU_C4));
    CHECK(no_component(cfu_device_component(AT(device), 256), CFU_C4));
    CHECK(no_component(cfu_device_component(AT(device), 0xFFFFFFFF), CFU_C4));
    CHECK(no_component(cfu_device_component(device + EDGE, CFU_DEVICE_SIZE - 1, 0), CFU_C1));
    device[EDGE + STAGED(CFU_COMPONENT_LIMIT - 1)] = 2;
    CHECK(no_component(cfu_device_component(AT(device), 0), CFU_D1));
    CHECK(no_component(cfu_device_component(AT(device), 2), CFU_D1));
    CHECK(no_component(cfu_device_component(device + EDGE, 0, 2), CFU_C1));
    EDGES(device);
}

/* ---- Floors (document 02, A5) ---- */

/* The bench device, whose component 2 has a region of 8 bytes and the floor 1.3.0, above its running 1.1.0. */
static void bench_with_floor(void)
{
    const cfu_listed one = {1, {1, 2, 0}, 0, 64, {0, 0, 0}}, two = {2, {1, 1, 0}, 64, CFU_REGION_LEAST, {1, 3, 0}};
    CLEAR(device, 0);
    CLEAR(staging, 0x77);
    CLEAR(list, 0);
    CHECK(cfu_list_put(AT(list), 0, one) == CFU_SERVED && cfu_list_put(AT(list), 1, two) == CFU_SERVED);
    CHECK(cfu_device_set_up(AT(device), 0x0042, AT(list), 2, AT(staging)) == CFU_SERVED);
}

/* An offer of a version for component 2, and its reply. */
static void version_offered(uint8_t major, uint16_t minor, uint8_t variant, uint8_t reason, uint8_t status)
{
    const uint8_t packet[CFU_SHORT_SIZE] = {0, 0, 2, 0xA5, variant, (uint8_t)minor, (uint8_t)(minor >> 8), major, 0, 0, 0, 0, CFU_PROTOCOL, 0, 0x42, 0};
    offers(packet, sizeof packet, CFU_SERVED, 1);
    CHECK(SAME(replies, 0, 0, 0, 0xA5, 0, 0, 0, 0, reason, 0, 0, 0, status));
}

/* The image 1.MINOR.0 of component 2 in one block, and its status. */
static void image_sent(uint8_t minor, uint8_t status)
{
    enum { CRC_AT = CFU_DATA_AT + CFU_REGION_LEAST - 2 };
    uint8_t packet[CFU_LONG_SIZE] = {CFU_FLAG_FIRST_BLOCK | CFU_FLAG_LAST_BLOCK, CFU_REGION_LEAST, 0, 0, 0, 0, 0, 0, 0, minor, 0, 1, 2, 0x99};
    const uint16_t crc = crc_of(packet + CFU_DATA_AT, CRC_AT - CFU_DATA_AT);
    packet[CRC_AT] = (uint8_t)(crc >> 8);
    packet[CRC_AT + 1] = (uint8_t)crc;
    answered(packet, status);
    CHECK(memcmp(staging + EDGE + 64, packet + CFU_DATA_AT, CFU_REGION_LEAST) == 0);
}

/* Component 2 runs 1.MINOR.0 and has the floor 1.3.0; 1.PENDING.0 is staged, or nothing. */
static int is_second(uint16_t minor, uint16_t pending)
{
    cfu_component c = cfu_device_component(AT(device), 1);
    return c.number == CFU_SERVED && c.id == 2 && is_version(c.running, 1, minor, 0) && c.base == 64 && c.length == CFU_REGION_LEAST &&
           is_version(c.floor, 1, 3, 0) && c.pending == (pending != 0) && is_version(c.staged, pending != 0, pending, 0);
}

static void floor_calls(void)
{
    bench_with_floor();
    CHECK(is_second(1, 0));
    /* check 7: what is below the floor is rejected though it is newer; another variant is, before that; component 1 has no floor */
    version_offered(1, 2, 0, CFU_REJECT_OLD_FW, CFU_OFFER_REJECT);
    version_offered(1, 1, 0, CFU_REJECT_OLD_FW, CFU_OFFER_REJECT);
    version_offered(0, 0xFFFF, 0, CFU_REJECT_OLD_FW, CFU_OFFER_REJECT);
    version_offered(1, 2, 1, CFU_REJECT_WRONG_VARIANT, CFU_OFFER_REJECT);
    version_offered(1, 3, 1, CFU_REJECT_WRONG_VARIANT, CFU_OFFER_REJECT);
    /* image judgement: of an accepted offer an image below the floor, newer than what runs and the same; nothing is staged */
    version_offered(1, 3, 0, 0, CFU_OFFER_ACCEPT);
    image_sent(2, CFU_ERROR_VERSION);
    version_offered(2, 0, 0, 0, CFU_OFFER_ACCEPT);
    image_sent(1, CFU_ERROR_VERSION);
    CHECK(is_second(1, 0));
    /* one at the floor */
    version_offered(1, 3, 0, 0, CFU_OFFER_ACCEPT);
    image_sent(3, CFU_SUCCESS);
    CHECK(is_second(1, 3));
    version_offered(1, 2, 0, CFU_REJECT_SWAP_PENDING, CFU_OFFER_REJECT);
    /* D1: a staged version below the floor, newer than what runs and the same; a floor above it by minor and by major; S5 */
    no_device(STAGED(1) + 2, 2);
    no_device(STAGED(1) + 2, 1);
    no_device(FLOOR(1) + 1, 4);
    no_device(FLOOR(1) + 2, 1);
    no_device(FLOOR(1) + 3, 2);
    no_device(FLOOR(1), 1);
    no_device(FLOOR(0), 0xFF);
    /* a reset keeps the floor, below which nothing runs from then on */
    CHECK(cfu_device_reset(AT(device)) == CFU_SERVED);
    CHECK(is_second(3, 0));
    version_offered(1, 3, 0, CFU_REJECT_OLD_FW, CFU_OFFER_REJECT);
    version_offered(1, 4, 0, 0, CFU_OFFER_ACCEPT);
    CHECK(cfu_device_reset(AT(device)) == CFU_SERVED && is_second(3, 0));
    /* where nothing is staged a floor may stand anywhere, and that of a component that is not in use is not judged, by set-up neither */
    memset(device + EDGE + FLOOR(1) + 1, 0xFF, 3);
    memset(device + EDGE + FLOOR(2), 0xFF, 4);
    CHECK(cfu_device_version_reply(AT(device), AT(longer)) == CFU_SERVED);
    version_offered(255, 65534, 0, CFU_REJECT_OLD_FW, CFU_OFFER_REJECT);
    version_offered(255, 65535, 0, 0, CFU_OFFER_ACCEPT);
    memset(list + EDGE + 2 * CFU_LISTED_SIZE + CFU_COMPONENT_FLOOR_AT, 0xFF, 4);
    CHECK(cfu_device_set_up(AT(device), 0x0042, AT(list), 2, AT(staging)) == CFU_SERVED);
    CHECK(is_second(1, 0));
    /* S5 for a variant alone */
    list[EDGE + CFU_COMPONENT_FLOOR_AT] = 1;
    CHECK(cfu_device_set_up(AT(device), 0x0042, AT(list), 2, AT(staging)) == CFU_S5);
    CHECK(is_second(1, 0));
    EDGES(device), EDGES(list);
}

static void entry_calls(const uint8_t *bundle, size_t length)
{
    CHECK(cfu_bundle_check(bundle, length, AT(contents)).number == CFU_SERVED);
    CHECK(is_entry(cfu_contents_entry(AT(contents), 0), CFU_SERVED, 0, 56, 74, 2));
    CHECK(is_entry(cfu_contents_entry(AT(contents), 1), CFU_SERVED, 0, 130, 74, 2));
    CHECK(is_entry(cfu_contents_entry(AT(contents), 2), CFU_C4, 0, 0, 0, 0));
    CHECK(is_entry(cfu_contents_entry(AT(contents), 0xFFFFFFFF), CFU_C4, 0, 0, 0, 0));
    CHECK(is_entry(cfu_contents_entry(contents + EDGE, CFU_CONTENTS_SIZE - 1, 0), CFU_C1, 0, 0, 0, 0));
    /* the row that a check left, with its entry */
    uint8_t bad[204];
    memcpy(bad, bundle, sizeof bad);
    bad[CFU_BUNDLE_HEAD_SIZE + CFU_BUNDLE_ENTRY_SIZE] = 1;
    CHECK(cfu_bundle_check(bad, sizeof bad, AT(contents)).number == CFU_B5);
    CHECK(is_entry(cfu_contents_entry(AT(contents), 0), CFU_B5, 2, 0, 0, 0));
    CHECK(is_entry(cfu_contents_entry(AT(contents), 9), CFU_B5, 2, 0, 0, 0));
    CHECK(cfu_bundle_check(bad, 7, AT(contents)).number == CFU_B1);
    CHECK(is_entry(cfu_contents_entry(AT(contents), 0), CFU_B1, 0, 0, 0, 0));
    CLEAR(contents, 0);
    CHECK(is_entry(cfu_contents_entry(AT(contents), 0), CFU_C1, 0, 0, 0, 0));
    EDGES(contents);
}

/* ---- Words and macros ---- */

static int says(uint32_t kind, uint32_t number, const char *name, const char *sentence)
{
    return strcmp(cfu_name(kind, number), name) == 0 && strcmp(cfu_sentence(kind, number), sentence) == 0;
}

static void words_and_macros(void)
{
    CHECK(says(CFU_OF_CALL, CFU_B6, "B6", "an earlier entry offers the same component"));
    CHECK(says(CFU_OF_CALL, CFU_S1, "S1", "the staging memory is over 65,536 bytes"));
    CHECK(says(CFU_OF_CALL, CFU_S5, "S5", "a floor has a variant other than 0, where only major and minor count"));
    CHECK(says(CFU_OF_ENDING, CFU_H1, "H1", "the device refused a block or its image"));
    CHECK(says(CFU_OF_OFFER_STATUS, CFU_OFFER_SKIP, "SKIP", "its need is not met"));
    CHECK(says(CFU_OF_REASON, CFU_REJECT_SWAP_PENDING, "SWAP_PENDING", "the component awaits a reset"));
    CHECK(says(CFU_OF_REASON, CFU_REJECT_OLD_FW, "OLD_FW", "not newer than what runs, or below the floor"));
    CHECK(says(CFU_OF_CONTENT_STATUS, CFU_ERROR_VERIFY, "ERROR_VERIFY", "the image is for another component"));
    CHECK(says(CFU_OF_INFORMATION, CFU_INFO_END_OFFER_LIST, "END_OFFER_LIST", "end offer list"));
    CHECK(says(CFU_OF_EXTENDED, CFU_NOTIFY_ON_READY, "NOTIFY_ON_READY", "notify on ready"));
    CHECK(says(CFU_OF_CALL, 0x4209, "unknown", "unknown") && says(99, CFU_B6, "unknown", "unknown"));
    /* one number, four kinds */
    CHECK(strcmp(cfu_name(CFU_OF_CALL, 0), "SERVED") == 0 && strcmp(cfu_name(CFU_OF_ENDING, 0), "RUNNING") == 0);
    CHECK(strcmp(cfu_name(CFU_OF_REASON, 0), "OLD_FW") == 0 && strcmp(cfu_name(CFU_OF_CONTENT_STATUS, 0), "SUCCESS") == 0);
    CHECK(CFU_VERSION(1, 0x0203, 4) == 0x01020304 && CFU_VERSION(255, 65535, 255) == 0xFFFFFFFF);
    CHECK(CFU_VERSION_MAJOR(0x01020304u) == 1 && CFU_VERSION_MINOR(0x01020304u) == 0x0203 && CFU_VERSION_VARIANT(0x01020304u) == 4);
    CHECK(CFU_LEAST(1, 0x0203) == 0x010203 && CFU_LEAST_MAJOR(0x010203u) == 1 && CFU_LEAST_MINOR(0x010203u) == 0x0203);
    /* a version's number is what its lent bytes are, and a need's least what an offer has */
    cfu_offer o = cfu_read_offer((const uint8_t[CFU_SHORT_SIZE]){0, 0, 1, 0xA5, 4, 3, 2, 1, 2, 7, 6, 5, 2, 0, 0x42, 0}, CFU_SHORT_SIZE).offer;
    CHECK(is_version(o.version, CFU_VERSION_MAJOR(0x01020304u), CFU_VERSION_MINOR(0x01020304u), CFU_VERSION_VARIANT(0x01020304u)));
    CHECK(o.least == CFU_LEAST(5, 0x0607));
}

int main(int count, char **words)
{
    static uint8_t bundle[CFU_BUNDLE_LIMIT];
    FILE *file = count == 2 ? fopen(words[1], "rb") : NULL;
    if (file == NULL) {
        printf("usage: calls BUNDLE\n");
        return 2;
    }
    size_t length = fread(bundle, 1, sizeof bundle, file);
    fclose(file);
    CHECK(length == 204);
    device_calls();
    device_bytes();
    device_copies();
    device_wraps();
    packet_calls();
    host_calls(bundle, length);
    host_copies();
    writer_calls();
    list_calls();
    component_calls();
    floor_calls();
    entry_calls(bundle, length);
    words_and_macros();
    printf("%u passed, %u failed\n", passed, failed);
    return failed == 0 && passed > 0 ? 0 : 1;
}
