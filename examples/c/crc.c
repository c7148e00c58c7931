/* Checksums of a message, bit by bit: the polynomials of networks and discs, without a table.
   The message is the text 1, 2, .., 9, which everybody tries first, and then `count` drawn bytes.
   ARGS: 2026 300 */
#include <stdint.h>
#include <stdio.h>

enum { DIGITS = 9 };

static uint32_t state;

/* The next byte of a generator that adds and multiplies. */
static uint32_t drawn_byte(void) {
    state = state * 1664525u + 1013904223u;
    return state >> 24;
}

/* Byte number `at` of the message: a digit first, then what is drawn. */
static uint32_t message_byte(int at) {
    return at < DIGITS ? (uint32_t)('1' + at) : drawn_byte();
}

/* The bits of a number of `width` bits from the other end. */
static uint32_t turned(uint32_t number, int width) {
    uint32_t made = 0;
    for (int bit = 0; bit < width; bit++) {
        made = made << 1 | (number & 1);
        number >>= 1;
    }
    return made;
}

/* CRC-32 of Ethernet and zip, with the low bit first. */
static uint32_t crc32_step(uint32_t crc, uint32_t byte) {
    crc ^= byte;
    for (int bit = 0; bit < 8; bit++) {
        if (crc & 1)
            crc = crc >> 1 ^ 0xEDB88320u;
        else
            crc >>= 1;
    }
    return crc;
}

/* The same with the high bit first, each byte turned before and the whole behind. */
static uint32_t crc32_turned_step(uint32_t crc, uint32_t byte) {
    crc ^= turned(byte, 8) << 24;
    for (int bit = 0; bit < 8; bit++) {
        if (crc & 0x80000000u)
            crc = crc << 1 ^ 0x04C11DB7u;
        else
            crc <<= 1;
    }
    return crc;
}

/* CRC-16 of XMODEM and of CCITT, with the high bit first. */
static uint16_t crc16_step(uint16_t crc, uint32_t byte) {
    crc ^= (uint16_t)(byte << 8);
    for (int bit = 0; bit < 8; bit++) {
        uint16_t high = crc & 0x8000u;
        crc = (uint16_t)(crc << 1);
        if (high)
            crc ^= 0x1021u;
    }
    return crc;
}

/* CRC-8, of small buses. */
static uint8_t crc8_step(uint8_t crc, uint32_t byte) {
    crc ^= (uint8_t)byte;
    for (int bit = 0; bit < 8; bit++) {
        int is_high = (crc & 0x80) != 0;
        crc = (uint8_t)(crc << 1);
        if (is_high)
            crc ^= 0x07;
    }
    return crc;
}

/* Adler's sum, which has no bits: two sums modulo the greatest prime below 65536. */
static uint32_t adler_step(uint32_t adler, uint32_t byte) {
    uint32_t low = ((adler & 0xFFFF) + byte) % 65521u;
    uint32_t high = ((adler >> 16) + low) % 65521u;
    return high << 16 | low;
}

long crc(long seed, long count) {
    uint32_t crc32 = 0xFFFFFFFFu, other = 0xFFFFFFFFu, adler = 1;
    uint16_t crc16 = 0, ccitt = 0xFFFFu;
    uint8_t crc8 = 0;
    state = (uint32_t)seed;
    for (int at = 0; at < DIGITS + count; at++) {
        uint32_t byte = message_byte(at);
        crc32 = crc32_step(crc32, byte);
        other = crc32_turned_step(other, byte);
        crc16 = crc16_step(crc16, byte);
        ccitt = crc16_step(ccitt, byte);
        crc8 = crc8_step(crc8, byte);
        adler = adler_step(adler, byte);
        if (at == DIGITS - 1 || at == DIGITS + count - 1) {
            printf("%u\n", ~crc32);
            printf("%u\n", crc16);
            printf("%u\n", ccitt);
            printf("%u\n", crc8);
            printf("%u\n", adler);
        }
    }
    return turned(~other, 32) == ~crc32;
}
