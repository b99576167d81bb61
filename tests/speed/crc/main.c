/*
 * main.c: the CRC of 65,536 bytes by the table of sixteen and bit by bit, as several compilers make the same steps.
 *
 * usage: crc            every way gives the check value and agrees on every message of three bytes and on the measured bytes, or status 1; then a line
 *                       `NAME nanoseconds` for each
 *        crc NAME       that way once over the measured bytes, for a count of its instructions
 *
 * A message of two bytes leaves every register of 16 bits, so that those of three try every register with every byte.
 */
#define _POSIX_C_SOURCE 199309L
#include <stddef.h>
#include <stdint.h>
#include <stdio.h>
#include <stdlib.h>
#include <string.h>
#include <time.h>

typedef uint16_t way(const uint8_t *bytes, size_t length);

/* WAYS is X(NAME) for each compiler: it has made NAME_table and NAME_bits. Those of the library have the names of crates/speed_crc. */
#define library_table crc16_by_table
#define library_bits crc16_by_bits
#define X(name) way name##_table, name##_bits;
WAYS
#undef X

static const struct {
    const char *name;
    way *call;
} ways[] = {
#define X(name) {#name "_table", name##_table}, {#name "_bits", name##_bits},
    WAYS
#undef X
};

enum { COUNT = sizeof ways / sizeof *ways, MEASURED = 65536, REPETITIONS = 40 };

static uint8_t measured[MEASURED];

/* Nanoseconds of the processor that this thread has had. */
static double now(void)
{
    struct timespec time;
    if (clock_gettime(CLOCK_THREAD_CPUTIME_ID, &time) != 0) {
        puts("FAILED: there is no clock of the thread's processor time");
        exit(1);
    }
    return (double)time.tv_sec * 1e9 + (double)time.tv_nsec;
}

static int differ(const char *name, const uint8_t *bytes, size_t length, unsigned is, unsigned due)
{
    printf("FAILED: %s gives %04X and not %04X for %zu bytes: %02X %02X %02X ..\n", name, is, due, length, bytes[0], bytes[1], bytes[2]);
    return 1;
}

/* Every way gives the check value, and elsewhere what the library gives bit by bit. */
static int compare(void)
{
    static const uint8_t digits[] = {'1', '2', '3', '4', '5', '6', '7', '8', '9'};
    static uint8_t left[65536];
    unsigned registers = 0;
    for (size_t i = 0; i < COUNT; i++) {
        const uint16_t is = ways[i].call(digits, sizeof digits);
        if (is != 0x31C3)
            return differ(ways[i].name, digits, sizeof digits, is, 0x31C3);
    }
    for (uint32_t n = 0; n < 1u << 24; n++) {
        const uint8_t bytes[3] = {(uint8_t)(n >> 16), (uint8_t)(n >> 8), (uint8_t)n};
        if (bytes[2] == 0) {
            const uint16_t r = library_bits(bytes, 2);
            registers += left[r] == 0;
            left[r] = 1;
        }
        const uint16_t due = library_bits(bytes, sizeof bytes);
        for (size_t i = 0; i < COUNT; i++) {
            const uint16_t is = ways[i].call(bytes, sizeof bytes);
            if (is != due)
                return differ(ways[i].name, bytes, sizeof bytes, is, due);
        }
    }
    if (registers != 65536) {
        printf("FAILED: messages of two bytes leave %u registers\n", registers);
        return 1;
    }
    const uint16_t due = library_bits(measured, MEASURED);
    for (size_t i = 0; i < COUNT; i++) {
        const uint16_t is = ways[i].call(measured, MEASURED);
        if (is != due)
            return differ(ways[i].name, measured, MEASURED, is, due);
    }
    return 0;
}

int main(int argc, char **argv)
{
    uint32_t random = 1;
    for (size_t i = 0; i < MEASURED; i++) {
        random = random * 1664525 + 1013904223;
        measured[i] = (uint8_t)(random >> 24);
    }
    if (argc == 2) {
        for (size_t i = 0; i < COUNT; i++)
            if (strcmp(argv[1], ways[i].name) == 0) {
                printf("%04X\n", (unsigned)ways[i].call(measured, MEASURED));
                return 0;
            }
        printf("FAILED: there is no %s\n", argv[1]);
        return 1;
    }
    if (compare())
        return 1;
    double least[COUNT];
    volatile uint16_t kept;
    for (int repetition = 0; repetition < REPETITIONS; repetition++)
        for (size_t i = 0; i < COUNT; i++) {
            const double begun = now();
            kept = ways[i].call(measured, MEASURED);
            const double spent = now() - begun;
            if (repetition == 0 || spent < least[i])
                least[i] = spent;
        }
    (void)kept;
    for (size_t i = 0; i < COUNT; i++)
        printf("%s %.0f\n", ways[i].name, least[i]);
    return 0;
}
