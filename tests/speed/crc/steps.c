/*
 * steps.c: the CRC both ways in C, with the steps of crates/crc16 (the table, here a constant) and of crates/speed_crc (bit by bit). It shows what a compiler
 * makes of them that does not turn the bits into a table of its own. TABLE and BITS are the names that the two functions get.
 */
#include <stddef.h>
#include <stdint.h>

static const uint16_t entries[16] = {
    0x0000, 0x1021, 0x2042, 0x3063, 0x4084, 0x50A5, 0x60C6, 0x70E7, 0x8108, 0x9129, 0xA14A, 0xB16B, 0xC18C, 0xD1AD, 0xE1CE, 0xF1EF,
};

static uint16_t nibble_step(uint16_t r)
{
    return (uint16_t)((uint16_t)(r << 4) ^ entries[r >> 12]);
}

static uint16_t bit_step(uint16_t r)
{
    return (uint16_t)(r < 0x8000 ? r << 1 : (r << 1) ^ 0x1021);
}

uint16_t TABLE(const uint8_t *bytes, size_t length);
uint16_t BITS(const uint8_t *bytes, size_t length);

uint16_t TABLE(const uint8_t *bytes, size_t length)
{
    uint16_t r = 0;
    for (size_t i = 0; i < length; i++)
        r = nibble_step(nibble_step((uint16_t)(r ^ bytes[i] << 8)));
    return r;
}

uint16_t BITS(const uint8_t *bytes, size_t length)
{
    uint16_t r = 0;
    for (size_t i = 0; i < length; i++) {
        r = (uint16_t)(r ^ bytes[i] << 8);
        for (size_t k = 0; k < 8; k++)
            r = bit_step(r);
    }
    return r;
}
