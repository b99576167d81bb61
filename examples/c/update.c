/*
 * update.c: updates a simulated device from a bundle file, over the C interface include/cfu.h (document 01, "The device", "The host", E12 and E13; document 02,
 * A4 and A5).
 *
 * Device and host stand in one process, and a bus between them: `deliver` takes a packet to the device, `bring` takes the next reply to the host. On a PC the
 * host's half stays, and the two write and read over HID; in a device `serve` is what the main loop does with a packet that has come. With --twice the bus has
 * a hub that delivers blocks twice.
 *
 * Ends with status
 *     0  done: every offer of the bundle was completed
 *     1  done, but the device did not take every offer
 *     2  the command line is wrong
 *     3  the file cannot be read
 *     4  the bundle is refused (B1 to B8)
 *     5  the device is refused at set-up (S1 to S5)
 *     6  the host ended the update (H1 to H4)
 *     7  a call refused what this program lent to it (C1 to C4, D1 to D3, N1, P1, P2)
 *     8  what was printed is lost
 */
#define _POSIX_C_SOURCE 200809L /* isatty, fileno */

#include "cfu.h"
#include "cfu_words.h"

#include <errno.h>
#include <stdarg.h>
#include <stdbool.h>
#include <stdio.h>
#include <stdlib.h>
#include <string.h>
#include <unistd.h>

enum status { ALL_COMPLETED, NOT_ALL_TAKEN, WRONG_COMMAND, NO_FILE, BUNDLE_REFUSED, SET_UP_REFUSED, UPDATE_ENDED, CALL_REFUSED, OUTPUT_LOST };

/* A number of cfu.h as text. */
#define TEXT_OF(number) #number
#define TEXT(number) TEXT_OF(number)

static const char USAGE[] =
    "usage: update [options] BUNDLE\n"
    "Updates a simulated device from a bundle file, prints what happened, and resets the device.\n"
    "\n"
    "  --platform NUMBER           the device's platform (0x0042)\n"
    "  --component ID:VERSION:BASE:LENGTH[:FLOOR]\n"
    "                              a component, its running version as major.minor.variant, its region of the staging memory, and its\n"
    "                              floor, the lowest version that it takes, with variant 0; up to " TEXT(CFU_COMPONENT_LIMIT) " times\n"
    "                              (1:1.2.0:0:64 and 2:1.1.0:64:64)\n"
    "  --staging BYTES             the device's staging memory (up to the end of the last region)\n"
    "  --token NUMBER              the host's token (0xA5)\n"
    "  --packets                   print each packet and each reply\n"
    "  --twice                     deliver every block that is neither first nor last twice, as some hubs do\n"
    "  --help                      print this\n"
    "\n"
    "Numbers are decimal, or hexadecimal behind 0x. The end's status:\n"
    "  0  done: every offer of the bundle was completed\n"
    "  1  done, but the device did not take every offer\n"
    "  2  the command line is wrong\n"
    "  3  the file cannot be read\n"
    "  4  the bundle is refused (B1 to B8)\n"
    "  5  the device is refused at set-up (S1 to S5)\n"
    "  6  the host ended the update (H1 to H4)\n"
    "  7  a call refused what this program lent to it (C1 to C4, D1 to D3, N1, P1, P2)\n"
    "  8  what was printed is lost\n";

/* ---- Refusals ---- */

static int refused(uint32_t number, uint32_t entry, int status)
{
    printf("refused %s", cfu_name(CFU_OF_CALL, number));
    if (entry != 0)
        printf(", entry %u", (unsigned)entry);
    printf(": %s\n", cfu_sentence(CFU_OF_CALL, number));
    return status;
}

static void print_version(cfu_version v)
{
    printf("%u.%u.%u", (unsigned)v.major, (unsigned)v.minor, (unsigned)v.variant);
}

/* ---- The device ---- */

struct device {
    uint16_t platform;
    uint8_t count;
    cfu_listed list[CFU_COMPONENT_LIMIT];
    uint8_t record[CFU_DEVICE_SIZE];
    uint8_t *staging;
    size_t staging_len;
};

static uint32_t set_up(struct device *d)
{
    uint8_t list[CFU_LIST_SIZE] = {0};
    for (uint8_t i = 0; i < d->count; i++) {
        uint32_t number = cfu_list_put(list, sizeof list, i, d->list[i]);
        if (number != CFU_SERVED)
            return number;
    }
    memset(d->record, 0, sizeof d->record);
    return cfu_device_set_up(d->record, sizeof d->record, d->platform, list, sizeof list, d->count, d->staging, d->staging_len);
}

/* What runs, the floor where there is one and what is pending, of each component up to the first place that has none. */
static uint32_t show_device(const struct device *d)
{
    for (uint32_t place = 0;; place++) {
        cfu_component c = cfu_device_component(d->record, sizeof d->record, place);
        if (c.number != CFU_SERVED)
            return c.number == CFU_C4 ? CFU_SERVED : c.number;
        printf("  component %u runs ", (unsigned)c.id);
        print_version(c.running);
        if (c.floor.major != 0 || c.floor.minor != 0) {
            printf(", floor ");
            print_version(c.floor);
        }
        if (c.pending) {
            printf(", pending ");
            print_version(c.staged);
        }
        printf("\n");
    }
}

/*
 * Answers a packet that has come. A device that has served this host alone since its code 0 owes no ready-reply, so that one reply comes for each packet.
 */
static uint32_t serve(struct device *d, const uint8_t *packet, size_t length, uint8_t *reply, size_t *reply_len)
{
    uint8_t due[CFU_REPLIES_SIZE] = {0};
    cfu_replies r = length == CFU_SHORT_SIZE
                        ? cfu_device_offer(d->record, sizeof d->record, d->staging, d->staging_len, packet, length, due, sizeof due)
                        : cfu_device_content(d->record, sizeof d->record, d->staging, d->staging_len, packet, length, due, sizeof due);
    *reply_len = r.count > 0 ? CFU_SHORT_SIZE : 0;
    memcpy(reply, due, CFU_SHORT_SIZE);
    return r.number;
}

/* ---- The bus ---- */

/* Replies on their way to the host, the oldest first. Never more than three: that to the copy of a block, that to the next block, and that to its copy. */
enum { ON_THE_WAY = 3 };

struct bus {
    struct device *device;
    bool twice; /* blocks that are neither first nor last are delivered twice */
    uint8_t replies[ON_THE_WAY][CFU_SHORT_SIZE];
    size_t lengths[ON_THE_WAY];
    unsigned count;
};

static bool is_doubled(const struct bus *bus, const uint8_t *packet, size_t length)
{
    return bus->twice && length == CFU_LONG_SIZE && (packet[0] & (CFU_FLAG_FIRST_BLOCK | CFU_FLAG_LAST_BLOCK)) == 0;
}

/* Takes a packet to the device, once or twice; the replies are then on their way. */
static uint32_t deliver(struct bus *bus, const uint8_t *packet, size_t length)
{
    uint32_t number = CFU_SERVED;
    unsigned times = is_doubled(bus, packet, length) ? 2 : 1;
    for (unsigned i = 0; i < times && number == CFU_SERVED && bus->count < ON_THE_WAY; i++, bus->count++)
        number = serve(bus->device, packet, length, bus->replies[bus->count], &bus->lengths[bus->count]);
    return number;
}

/* Takes the next reply to the host; where none comes, a length of 0 lets the host end by H2. */
static size_t bring(struct bus *bus, uint8_t *reply)
{
    if (bus->count == 0)
        return 0;
    size_t length = bus->lengths[0];
    memcpy(reply, bus->replies[0], CFU_SHORT_SIZE);
    bus->count--;
    memmove(bus->replies[0], bus->replies[1], bus->count * sizeof bus->replies[0]);
    memmove(bus->lengths, bus->lengths + 1, bus->count * sizeof bus->lengths[0]);
    return length;
}

/* ---- The bundle ---- */

struct bundle {
    uint8_t bytes[CFU_BUNDLE_LIMIT + 1]; /* one byte more shows that a file is too long, without reading on */
    size_t length;
    uint8_t contents[CFU_CONTENTS_SIZE];
    uint32_t count;
};

static bool read_file(const char *name, struct bundle *b)
{
    FILE *file = fopen(name, "rb");
    if (file != NULL) {
        b->length = fread(b->bytes, 1, sizeof b->bytes, file);
        bool fine = !ferror(file);
        int why = errno;
        fclose(file);
        if (fine)
            return true;
        errno = why;
    }
    fprintf(stderr, "update: %s: %s\n", name, strerror(errno));
    return false;
}

static cfu_offer offer_of(const struct bundle *b, uint32_t entry)
{
    return cfu_read_offer(b->bytes + CFU_BUNDLE_HEAD_SIZE + CFU_BUNDLE_ENTRY_SIZE * (entry - 1), CFU_SHORT_SIZE).offer;
}

/* How many records the check found in an entry. */
static uint32_t records_of(const struct bundle *b, uint32_t entry)
{
    return cfu_contents_entry(b->contents, sizeof b->contents, entry - 1).records;
}

static void show_bundle(const char *name, const struct bundle *b)
{
    printf("bundle %s: bytes %lu, offers %u\n", name, (unsigned long)b->length, (unsigned)b->count);
    for (uint32_t i = 1; i <= b->count; i++) {
        cfu_offer o = offer_of(b, i);
        printf("  offer %u: component %u to ", (unsigned)i, (unsigned)o.id);
        print_version(o.version);
        if (o.need != 0)
            printf(", needs component %u at %u.%u", (unsigned)o.need, (unsigned)CFU_LEAST_MAJOR(o.least), (unsigned)CFU_LEAST_MINOR(o.least));
        printf(", platform 0x%04X, records %u\n", (unsigned)o.platform, (unsigned)records_of(b, i));
    }
}

/* ---- What is printed on the way ---- */

struct progress {
    bool packets;  /* print each packet */
    bool terminal; /* one line that is written over */
    uint32_t entry;
    bool open; /* that line is not ended yet */
};

static void print_bytes(const char *mark, const uint8_t *bytes, size_t length)
{
    printf("%s", mark);
    for (size_t i = 0; i < length; i++)
        printf(" %02X", (unsigned)bytes[i]);
    printf("  ");
}

/* Ends the line that is written over, so that another can follow. */
static void end_line(struct progress *p)
{
    if (p->open)
        printf("\n");
    p->open = false;
}

static void tell_offer_packet(struct progress *p, const uint8_t *packet, uint32_t pass)
{
    cfu_offer_packet sent = cfu_read_offer(packet, CFU_SHORT_SIZE);
    if (sent.kind == CFU_KIND_INFORMATION && sent.signal.code == CFU_INFO_START_OFFER_LIST) {
        end_line(p);
        printf("pass %u\n", (unsigned)pass);
    }
    if (!p->packets)
        return;
    print_bytes("->", packet, CFU_SHORT_SIZE);
    if (sent.kind == CFU_KIND_OFFER)
        printf("offer for component %u\n", (unsigned)sent.offer.id);
    else if (sent.kind == CFU_KIND_INFORMATION)
        printf("information: %s\n", cfu_sentence(CFU_OF_INFORMATION, sent.signal.code));
    else
        printf("extended: %s\n", cfu_sentence(CFU_OF_EXTENDED, sent.signal.code));
}

static void tell_offer_reply(struct progress *p, const struct bundle *b, const uint8_t *packet, const uint8_t *reply, size_t reply_len)
{
    cfu_offer_packet sent = cfu_read_offer(packet, CFU_SHORT_SIZE);
    cfu_offer_reply got = cfu_read_offer_reply(reply, reply_len);
    const char *answer = got.number == CFU_SERVED ? cfu_name(CFU_OF_OFFER_STATUS, got.status) : "no reply";
    if (p->packets) {
        print_bytes("<-", reply, reply_len);
        printf("%s\n", answer);
    }
    if (sent.kind != CFU_KIND_OFFER)
        return;
    for (p->entry = 1; p->entry < b->count && offer_of(b, p->entry).id != sent.offer.id;)
        p->entry++;
    end_line(p);
    printf("  offer %u: %s", (unsigned)p->entry, answer);
    if (got.number == CFU_SERVED && got.status == CFU_OFFER_SKIP)
        printf(": %s", cfu_sentence(CFU_OF_OFFER_STATUS, got.status));
    if (got.status == CFU_OFFER_REJECT)
        printf(": %s", cfu_sentence(CFU_OF_REASON, got.reason));
    printf("\n");
}

/* A block, and its copy where the bus delivers it twice. */
static void tell_content_packet(struct progress *p, const struct bundle *b, const uint8_t *packet, bool doubled)
{
    uint8_t data[CFU_DATA_SIZE];
    cfu_content sent = cfu_read_content(packet, CFU_LONG_SIZE, data, sizeof data);
    unsigned block = sent.sequence + 1u, blocks = (unsigned)records_of(b, p->entry);
    if (p->packets) {
        print_bytes("->", packet, CFU_LONG_SIZE);
        printf("content: block %u, bytes %u at address %u\n", block, (unsigned)sent.length, (unsigned)sent.address);
        if (doubled) {
            print_bytes("->", packet, CFU_LONG_SIZE);
            printf("content: block %u again, bytes %u at address %u\n", block, (unsigned)sent.length, (unsigned)sent.address);
        }
    } else if (p->terminal) {
        printf("\r  offer %u: block %u of %u, %u %%", (unsigned)p->entry, block, blocks, 100 * block / blocks);
        fflush(stdout);
        p->open = true;
    }
}

static void tell_content_reply(struct progress *p, const struct bundle *b, const uint8_t *packet, const uint8_t *reply, size_t reply_len, bool passed_over)
{
    uint8_t data[CFU_DATA_SIZE];
    cfu_content sent = cfu_read_content(packet, CFU_LONG_SIZE, data, sizeof data);
    cfu_content_reply got = cfu_read_content_reply(reply, reply_len);
    if (p->packets) {
        print_bytes("<-", reply, reply_len);
        printf("%s", got.number == CFU_SERVED ? cfu_sentence(CFU_OF_CONTENT_STATUS, got.status) : "no reply");
        if (passed_over)
            printf(": block %u again, passed over", got.sequence + 1u);
        printf("\n");
    }
    if ((sent.flags & CFU_FLAG_LAST_BLOCK) != 0 && !passed_over && got.number == CFU_SERVED && got.status == CFU_SUCCESS) {
        end_line(p);
        printf("  offer %u: completed, blocks %u\n", (unsigned)p->entry, (unsigned)records_of(b, p->entry));
    }
}

/* ---- The host ---- */

static int show_report(const struct bundle *b, cfu_report r)
{
    int status = UPDATE_ENDED;
    if (r.ending == CFU_DONE) {
        printf("done\n");
        status = r.completed == b->count ? ALL_COMPLETED : NOT_ALL_TAKEN;
    } else {
        printf("ended %s: %s", cfu_name(CFU_OF_ENDING, r.ending), cfu_sentence(CFU_OF_ENDING, r.ending));
        if (r.ending == CFU_H1)
            printf(" with status 0x%02X: %s", (unsigned)r.status, cfu_sentence(CFU_OF_CONTENT_STATUS, r.status));
        printf("\n");
    }
    printf("report: completed %u of %u, packets %u, passes %u\n", (unsigned)r.completed, (unsigned)b->count, (unsigned)r.packets, (unsigned)r.passes);
    return status;
}

/*
 * A whole session: a step, the packet to the device, and the next reply to the next step, until the host has ended. A step that sends nothing is the end only
 * where the host runs no more: where it runs, the reply was one of two to a block that the bus delivered twice, and the next reply is awaited.
 */
static int update(struct bus *bus, struct bundle *b, uint8_t token, struct progress p)
{
    uint8_t host[CFU_HOST_SIZE], packet[CFU_LONG_SIZE], sent[CFU_LONG_SIZE], reply[CFU_SHORT_SIZE];
    size_t sent_len = 0, reply_len = 0; /* of the packet that was sent last, and of the reply that came last */
    cfu_report report = {0};
    uint32_t number = cfu_host_fresh(host, sizeof host, token);
    while (number == CFU_SERVED) {
        cfu_step step =
            cfu_host_step_checked(host, sizeof host, b->contents, sizeof b->contents, b->bytes, b->length, reply, reply_len, packet, sizeof packet);
        report = cfu_host_report(host, sizeof host);
        number = step.number;
        if (sent_len == CFU_SHORT_SIZE)
            tell_offer_reply(&p, b, sent, reply, reply_len);
        else if (sent_len == CFU_LONG_SIZE)
            tell_content_reply(&p, b, sent, reply, reply_len, step.length == 0 && report.ending == CFU_RUNNING);
        if (number != CFU_SERVED || report.ending != CFU_RUNNING)
            break;
        if (step.length > 0) {
            if (step.length == CFU_SHORT_SIZE)
                tell_offer_packet(&p, packet, report.passes);
            else
                tell_content_packet(&p, b, packet, is_doubled(bus, packet, step.length));
            number = deliver(bus, packet, step.length);
            sent_len = step.length;
            memcpy(sent, packet, sent_len);
        }
        reply_len = bring(bus, reply);
    }
    end_line(&p);
    return number == CFU_SERVED ? show_report(b, report) : refused(number, 0, CALL_REFUSED);
}

/* ---- The command line ---- */

struct options {
    const char *file;
    uint8_t token;
    bool packets;
    bool twice;
    bool staging; /* its length was given */
};

static int wrong(const char *format, ...)
{
    va_list rest;
    va_start(rest, format);
    fprintf(stderr, "update: ");
    vfprintf(stderr, format, rest);
    fprintf(stderr, " (update --help)\n");
    va_end(rest);
    return WRONG_COMMAND;
}

/* A number up to a limit, and the character after it; the place after that, or NULL. */
static const char *take_number(const char *text, uint32_t limit, char behind, uint32_t *number)
{
    bool hexadecimal = text[0] == '0' && (text[1] == 'x' || text[1] == 'X');
    const char *digits = text + (hexadecimal ? 2 : 0);
    if (strchr("0123456789abcdefABCDEF", *digits) == NULL || *digits == '\0')
        return NULL;
    char *end;
    errno = 0;
    unsigned long long value = strtoull(digits, &end, hexadecimal ? 16 : 10);
    if (end == digits || errno != 0 || value > limit || *end != behind)
        return NULL;
    *number = (uint32_t)value;
    return behind == '\0' ? end : end + 1;
}

/* A version, major.minor.variant, and the character after it; the place after that, or NULL. */
static const char *take_version(const char *text, char behind, cfu_version *version)
{
    uint32_t major, minor, variant;
    if ((text = take_number(text, 0xFF, '.', &major)) == NULL || (text = take_number(text, 0xFFFF, '.', &minor)) == NULL ||
        (text = take_number(text, 0xFF, behind, &variant)) == NULL)
        return NULL;
    version->major = (uint8_t)major;
    version->minor = (uint16_t)minor;
    version->variant = (uint8_t)variant;
    return text;
}

/* Where the text ends behind the length there is no floor. Nothing of the component is judged here: set-up does that. */
static bool take_component(const char *text, cfu_listed *c)
{
    const cfu_version none = {0, 0, 0};
    uint32_t id;
    if ((text = take_number(text, 0xFF, ':', &id)) == NULL || (text = take_version(text, ':', &c->running)) == NULL ||
        (text = take_number(text, 0xFFFFFFFF, ':', &c->base)) == NULL)
        return false;
    c->id = (uint8_t)id;
    c->floor = none;
    if (take_number(text, 0xFFFFFFFF, '\0', &c->length) != NULL)
        return true;
    return (text = take_number(text, 0xFFFFFFFF, ':', &c->length)) != NULL && take_version(text, '\0', &c->floor) != NULL;
}

static int take_option(const char *name, const char *value, struct device *d, struct options *o)
{
    uint32_t number;
    if (strcmp(name, "--component") == 0) {
        if (d->count == CFU_COMPONENT_LIMIT)
            return wrong("more than %d components", CFU_COMPONENT_LIMIT);
        if (!take_component(value, &d->list[d->count]))
            return wrong("%s %s: not ID:VERSION:BASE:LENGTH[:FLOOR]", name, value);
        d->count++;
    } else if (strcmp(name, "--platform") == 0) {
        if (take_number(value, 0xFFFF, '\0', &number) == NULL)
            return wrong("%s %s: not a number up to 0xFFFF", name, value);
        d->platform = (uint16_t)number;
    } else if (strcmp(name, "--token") == 0) {
        if (take_number(value, 0xFF, '\0', &number) == NULL)
            return wrong("%s %s: not a number up to 0xFF", name, value);
        o->token = (uint8_t)number;
    } else if (strcmp(name, "--staging") == 0) {
        if (take_number(value, 0xFFFFFF, '\0', &number) == NULL)
            return wrong("%s %s: not a number up to 0xFFFFFF", name, value);
        d->staging_len = number;
        o->staging = true;
    } else {
        return wrong("%s: no such option", name);
    }
    return 0;
}

/* The bench device of document 01, without floors. */
static void take_bench(struct device *d)
{
    const cfu_listed first = {1, {1, 2, 0}, 0, 64, {0, 0, 0}}, second = {2, {1, 1, 0}, 64, 64, {0, 0, 0}};
    d->list[0] = first;
    d->list[1] = second;
    d->count = 2;
}

/* Staging memory up to the end of the last region, as far as a device can have it. */
static size_t needed_staging(const struct device *d)
{
    uint64_t end = 0;
    for (unsigned i = 0; i < d->count; i++) {
        uint64_t its = (uint64_t)d->list[i].base + d->list[i].length;
        end = its > end ? its : end;
    }
    return end < CFU_STAGING_LIMIT ? (size_t)end : CFU_STAGING_LIMIT;
}

static int take_options(int count, char **words, struct device *d, struct options *o)
{
    for (int i = 1; i < count; i++) {
        if (strcmp(words[i], "--packets") == 0) {
            o->packets = true;
        } else if (strcmp(words[i], "--twice") == 0) {
            o->twice = true;
        } else if (strncmp(words[i], "--", 2) == 0) {
            if (i + 1 == count)
                return wrong("%s: no such option, or its value is missing", words[i]);
            int status = take_option(words[i], words[i + 1], d, o);
            if (status != 0)
                return status;
            i++;
        } else if (o->file != NULL) {
            return wrong("%s: a second file", words[i]);
        } else {
            o->file = words[i];
        }
    }
    if (o->file == NULL)
        return wrong("no bundle file");
    if (d->count == 0)
        take_bench(d);
    if (!o->staging)
        d->staging_len = needed_staging(d);
    return 0;
}

/* ---- The program ---- */

static int run(struct device *d, const struct options *o)
{
    static struct bundle b;
    if (!read_file(o->file, &b))
        return NO_FILE;
    cfu_check check = cfu_bundle_check(b.bytes, b.length, b.contents, sizeof b.contents);
    if (check.number != CFU_SERVED)
        return refused(check.number, check.entry, BUNDLE_REFUSED);
    b.count = check.count;
    show_bundle(o->file, &b);

    uint32_t number = set_up(d);
    if (number != CFU_SERVED)
        return refused(number, 0, SET_UP_REFUSED);
    printf("device: platform 0x%04X, staging %lu\n", (unsigned)d->platform, (unsigned long)d->staging_len);
    if ((number = show_device(d)) != CFU_SERVED)
        return refused(number, 0, CALL_REFUSED);

    struct progress p = {o->packets, !o->packets && isatty(fileno(stdout)), 1, false};
    struct bus bus = {.device = d, .twice = o->twice};
    int status = update(&bus, &b, o->token, p);

    printf("device:\n");
    if ((number = show_device(d)) != CFU_SERVED)
        return refused(number, 0, CALL_REFUSED);
    if ((number = cfu_device_reset(d->record, sizeof d->record)) != CFU_SERVED)
        return refused(number, 0, CALL_REFUSED);
    printf("device after the reset:\n");
    if ((number = show_device(d)) != CFU_SERVED)
        return refused(number, 0, CALL_REFUSED);
    return status;
}

/* The status, unless what was printed is lost: a full disk, or an output that was closed. */
static int ended(int status)
{
    if (fflush(stdout) == 0 && !ferror(stdout))
        return status;
    fprintf(stderr, "update: standard output: %s\n", strerror(errno));
    return OUTPUT_LOST;
}

int main(int count, char **words)
{
    static struct device d = {.platform = 0x0042};
    struct options o = {.token = 0xA5};
    for (int i = 1; i < count; i++)
        if (strcmp(words[i], "--help") == 0) {
            printf("%s", USAGE);
            return ended(ALL_COMPLETED);
        }
    int status = take_options(count, words, &d, &o);
    if (status != 0)
        return status;
    d.staging = calloc(d.staging_len + 1, 1); /* never of length 0, so that there is always an address to lend */
    if (d.staging == NULL)
        return wrong("no memory for %lu bytes of staging", (unsigned long)d.staging_len);
    memset(d.staging, 0xFF, d.staging_len);
    status = run(&d, &o);
    free(d.staging);
    return ended(status);
}
