/* Texts that grow, dice, base64 and the checksum of a frame. */
#include <stdarg.h>
#include <stdio.h>
#include <stdlib.h>
#include <string.h>

#include "scripts.h"

static void make_room(Text *text, size_t more)
{
    if (text->size + more <= text->room)
        return;
    text->room = (text->size + more) * 2 + 256;
    text->at = realloc(text->at, text->room);
    if (!text->at)
        abort();
}

void put(Text *text, const void *bytes, size_t size)
{
    make_room(text, size);
    if (size)
        memcpy(text->at + text->size, bytes, size);
    text->size += size;
}

void put_byte(Text *text, int byte)
{
    unsigned char one = byte;
    put(text, &one, 1);
}

void say(Text *text, const char *form, ...)
{
    char line[2048];
    va_list words;
    va_start(words, form);
    int size = vsnprintf(line, sizeof line, form, words);
    va_end(words);
    if (size < 0 || size >= (int)sizeof line)
        abort();
    put(text, line, size);
}

void put_hex(Text *text, const unsigned char *bytes, size_t size)
{
    static const char digits[] = "0123456789abcdef";
    make_room(text, 2 * size);
    for (size_t at = 0; at < size; at++) {
        text->at[text->size++] = digits[bytes[at] >> 4];
        text->at[text->size++] = digits[bytes[at] & 15];
    }
}

void put_base64(Text *text, const char *bytes)
{
    static const char letters[] = "ABCDEFGHIJKLMNOPQRSTUVWXYZabcdefghijklmnopqrstuvwxyz0123456789+/";
    size_t size = strlen(bytes);
    for (size_t at = 0; at < size; at += 3) {
        unsigned value = 0, left = size - at < 3 ? size - at : 3;
        for (unsigned k = 0; k < 3; k++)
            value = value << 8 | (k < left ? (unsigned char)bytes[at + k] : 0);
        for (unsigned k = 0; k < 4; k++)
            put_byte(text, k <= left ? letters[value >> (18 - 6 * k) & 63] : '=');
    }
}

/* CRC-24Q: the polynomial 1864CFB from 0 on, bit by bit; of the ASCII bytes 123456789 it makes CDE703. */
static uint32_t remainder_of(uint32_t value)
{
    for (int bit = 0; bit < 8; bit++)
        value = value & 0x800000 ? (value << 1 ^ 0x1864CFB) & 0xFFFFFF : value << 1;
    return value;
}

uint32_t checksum(const unsigned char *bytes, size_t size)
{
    static uint32_t rows[256];
    if (!rows[1])
        for (uint32_t byte = 0; byte < 256; byte++)
            rows[byte] = remainder_of(byte << 16);
    uint32_t value = 0;
    for (size_t at = 0; at < size; at++)
        value = (value << 8 & 0xFFFFFF) ^ rows[value >> 16 ^ bytes[at]];
    return value;
}

/* The generator splitmix64. */
uint64_t draw(Dice *dice)
{
    uint64_t value = dice->state += 0x9E3779B97F4A7C15u;
    value = (value ^ value >> 30) * 0xBF58476D1CE4E5B9u;
    value = (value ^ value >> 27) * 0x94D049BB133111EBu;
    return value ^ value >> 31;
}

unsigned below(Dice *dice, unsigned bound)
{
    return draw(dice) % bound;
}

int chance(Dice *dice, unsigned percent)
{
    return below(dice, 100) < percent;
}
