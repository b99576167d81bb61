/*
 * arm.c: one way of steps.c over 4,096 bytes as a program for an emulator of Arm, without a C library. tests/speed/crc/arm.sh counts the instructions from
 * `begin` to `end`. WAY is the way's name, DUE the CRC of those bytes.
 */
#include <stddef.h>
#include <stdint.h>

uint16_t WAY(const uint8_t *bytes, size_t length);
void start(void);

static uint8_t measured[4096];
static volatile uint16_t kept;

__attribute__((noinline)) static void begin(void)
{
    __asm__ volatile("");
}

__attribute__((noinline)) static void end(void)
{
    __asm__ volatile("");
}

/* The status is 0 where the CRC is DUE, and 1 otherwise. */
void start(void)
{
    uint32_t random = 1;
    for (size_t i = 0; i < sizeof measured; i++) {
        random = random * 1664525 + 1013904223;
        measured[i] = (uint8_t)(random >> 24);
    }
    begin();
    kept = WAY(measured, sizeof measured);
    end();
    register int call __asm__("r7") = 1; /* exit */
    register int status __asm__("r0") = kept != DUE;
    __asm__ volatile("svc 0" : : "r"(call), "r"(status));
}
