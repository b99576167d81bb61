/*
 * bundle.c: makes a bundle file from offer files and image files, over the C interface include/cfu.h (document 02, A3).
 *
 * An offer file is CFU's 16 bytes, as cfu_build_offer leaves them, with token 0. An image file is a whole region: version (4), component id (1), what the
 * component runs, and the CRC of all before it (2, high byte first).
 *
 * Ends with status
 *     0  the bundle is written
 *     1  the writer refuses (W1 to W7); nothing is written
 *     2  the command line is wrong
 *     3  a file cannot be read or written, an offer file has not 16 bytes, or what was printed is lost
 */
#include "cfu.h"
#include "cfu_words.h"

#include <errno.h>
#include <stdbool.h>
#include <stdio.h>
#include <string.h>

enum status { WRITTEN, REFUSED, WRONG_COMMAND, NO_FILE };

/* A number of cfu.h as text. */
#define TEXT_OF(number) #number
#define TEXT(number) TEXT_OF(number)

static const char USAGE[] =
    "usage: bundle OUT OFFER IMAGE [OFFER IMAGE ..]\n"
    "Writes to the file OUT a bundle of up to " TEXT(CFU_OFFER_LIMIT) " offers, in this order, each with the image of its whole region.\n"
    "\n"
    "  OFFER    a file of " TEXT(CFU_SHORT_SIZE) " bytes: CFU's offer, with token 0\n"
    "  IMAGE    a file of " TEXT(CFU_REGION_LEAST) " to 65,536 bytes: version (4), component (1), the rest, and the CRC (2) of all before it\n"
    "  --help   print this\n"
    "\n"
    "Prints `written N bytes`, or `refused ROW ENTRY` with the row's words as an error. The end's status:\n"
    "  0  the bundle is written\n"
    "  1  the writer refuses (W1 to W7); nothing is written\n"
    "  2  the command line is wrong\n"
    "  3  a file cannot be read or written, an offer file has not " TEXT(CFU_SHORT_SIZE) " bytes, or what was printed is lost\n";

/* ---- Refusals ---- */

static int refused(cfu_written w)
{
    printf("refused %s %u\n", cfu_name(CFU_OF_CALL, w.number), (unsigned)w.entry);
    fprintf(stderr, "bundle: ");
    if (w.entry != 0)
        fprintf(stderr, "entry %u: ", (unsigned)w.entry);
    fprintf(stderr, "%s\n", cfu_sentence(CFU_OF_CALL, w.number));
    return REFUSED;
}

/* ---- Files ---- */

static bool failed(const char *name, const char *why)
{
    fprintf(stderr, "bundle: %s: %s\n", name, why);
    return false;
}

/* Reads a file, at most `room` bytes of it. */
static bool read_file(const char *name, uint8_t *bytes, size_t room, size_t *length)
{
    FILE *file = fopen(name, "rb");
    if (file == NULL)
        return failed(name, strerror(errno));
    *length = fread(bytes, 1, room, file);
    bool fine = !ferror(file);
    int why = errno;
    fclose(file);
    return fine || failed(name, strerror(why));
}

static bool write_file(const char *name, const uint8_t *bytes, size_t length)
{
    FILE *file = fopen(name, "wb");
    if (file == NULL)
        return failed(name, strerror(errno));
    bool fine = fwrite(bytes, 1, length, file) == length;
    int why = errno;
    if (fclose(file) != 0 && fine) {
        why = errno;
        fine = false;
    }
    return fine || failed(name, strerror(why));
}

/* ---- What the writer is given ---- */

/* One entry more shows that there are too many, and one byte more that an image is too long, without reading on. */
struct given {
    uint8_t list[CFU_BUNDLE_ENTRY_SIZE * (CFU_OFFER_LIMIT + 1)];
    size_t list_len;
    uint8_t images[(CFU_STAGING_LIMIT + 1) * (CFU_OFFER_LIMIT + 1)];
    size_t images_len;
};

static void put_number(uint8_t *bytes, size_t number)
{
    for (unsigned i = 0; i < 4; i++)
        bytes[i] = (uint8_t)(number >> 8 * i);
}

/* An entry for the list: the offer, and where its image stands. */
static bool take_entry(struct given *g, const char *offer, const char *image)
{
    uint8_t bytes[CFU_SHORT_SIZE + 1], *entry = g->list + g->list_len;
    size_t length;
    if (!read_file(offer, bytes, sizeof bytes, &length))
        return false;
    if (length != CFU_SHORT_SIZE)
        return failed(offer, "an offer has " TEXT(CFU_SHORT_SIZE) " bytes");
    if (!read_file(image, g->images + g->images_len, CFU_STAGING_LIMIT + 1, &length))
        return false;
    memcpy(entry, bytes, CFU_SHORT_SIZE);
    put_number(entry + CFU_SHORT_SIZE, g->images_len);
    put_number(entry + CFU_SHORT_SIZE + 4, length);
    g->list_len += CFU_BUNDLE_ENTRY_SIZE;
    g->images_len += length;
    return true;
}

/* ---- The program ---- */

static int wrong(const char *words)
{
    fprintf(stderr, "bundle: %s (bundle --help)\n", words);
    return WRONG_COMMAND;
}

static int run(const char *out, char **files, int count)
{
    static struct given g;
    static uint8_t bundle[CFU_BUNDLE_LIMIT];
    for (int i = 0; i + 1 < count && g.list_len < sizeof g.list; i += 2)
        if (!take_entry(&g, files[i], files[i + 1]))
            return NO_FILE;
    cfu_written w = cfu_bundle_write(g.list, g.list_len, g.images, g.images_len, bundle, sizeof bundle);
    if (w.number != CFU_SERVED)
        return refused(w);
    if (!write_file(out, bundle, w.length))
        return NO_FILE;
    printf("written %u bytes\n", (unsigned)w.length);
    return WRITTEN;
}

/* The status, unless what was printed is lost. */
static int ended(int status)
{
    if (fflush(stdout) == 0 && !ferror(stdout))
        return status;
    failed("standard output", strerror(errno));
    return NO_FILE;
}

int main(int count, char **words)
{
    for (int i = 1; i < count; i++) {
        if (strcmp(words[i], "--help") == 0) {
            printf("%s", USAGE);
            return ended(WRITTEN);
        }
        if (strncmp(words[i], "--", 2) == 0)
            return wrong("no such option");
    }
    if (count < 4)
        return wrong(count < 2 ? "no file for the bundle" : "no offer with its image");
    if (count % 2 != 0)
        return wrong("an offer without its image");
    return ended(run(words[1], words + 2, count - 2));
}
