/*
 * A plain cutter of RTCM 3 frames, to compare with: it reads the whole stream from standard input,
 * cuts it PASSES times from memory, and prints the counts and the best time of a pass.
 *
 *     cut table|eights PASSES < STREAM
 *
 * "table" checks a frame with one table of 256 entries, "eights" with eight tables, eight bytes a
 * step.
 */
#include <stdint.h>
#include <stdio.h>
#include <stdlib.h>
#include <string.h>
#include <time.h>

static uint32_t tables[8][256];

static void make_tables(void)
{
    for (int byte = 0; byte < 256; byte++) {
        uint32_t crc = (uint32_t)byte << 16;
        for (int bit = 0; bit < 8; bit++)
            crc = crc & 0x800000 ? (crc << 1 ^ 0x1864CFB) & 0xFFFFFF : crc << 1;
        tables[0][byte] = crc;
    }
    for (int zeros = 1; zeros < 8; zeros++)
        for (int byte = 0; byte < 256; byte++) {
            uint32_t crc = tables[zeros - 1][byte];
            tables[zeros][byte] = (crc << 8 & 0xFFFFFF) ^ tables[0][crc >> 16];
        }
}

static uint32_t by_table(const uint8_t *at, size_t count)
{
    uint32_t crc = 0;
    for (; count > 0; count--)
        crc = (crc << 8 & 0xFFFFFF) ^ tables[0][crc >> 16 ^ *at++];
    return crc;
}

static uint32_t by_eights(const uint8_t *at, size_t count)
{
    uint32_t crc = 0;
    for (; count >= 8; count -= 8, at += 8)
        crc = tables[7][crc >> 16 ^ at[0]] ^ tables[6][(crc >> 8 & 255) ^ at[1]]
            ^ tables[5][(crc & 255) ^ at[2]] ^ tables[4][at[3]] ^ tables[3][at[4]]
            ^ tables[2][at[5]] ^ tables[1][at[6]] ^ tables[0][at[7]];
    for (; count > 0; count--)
        crc = (crc << 8 & 0xFFFFFF) ^ tables[0][crc >> 16 ^ *at++];
    return crc;
}

typedef uint32_t checksum(const uint8_t *, size_t);

static void cut(const uint8_t *stream, size_t size, checksum *crc, long *frames, long *junk)
{
    size_t at = 0;
    *frames = *junk = 0;
    while (at < size) {
        if (stream[at] != 0xD3) {
            at++, ++*junk;
            continue;
        }
        if (size - at < 3)
            break;
        size_t count = ((stream[at + 1] << 8 | stream[at + 2]) & 1023) + 6;
        if (size - at < count)
            break;
        const uint8_t *end = stream + at + count - 3;
        if (crc(stream + at, count - 3) == (uint32_t)(end[0] << 16 | end[1] << 8 | end[2]))
            at += count, ++*frames;
        else
            at++, ++*junk;
    }
}

int main(int argc, char **argv)
{
    if (argc != 3)
        return 2;
    checksum *crc = strcmp(argv[1], "eights") == 0 ? by_eights : by_table;
    size_t size = 0, room = 1 << 20;
    uint8_t *stream = malloc(room);
    for (size_t count; (count = fread(stream + size, 1, room - size, stdin)) > 0;) {
        size += count;
        if (size == room)
            stream = realloc(stream, room *= 2);
    }
    make_tables();
    double best = 0;
    long frames = 0, junk = 0;
    for (int pass = 0; pass < atoi(argv[2]); pass++) {
        clock_t start = clock();
        cut(stream, size, crc, &frames, &junk);
        double seconds = (double)(clock() - start) / CLOCKS_PER_SEC;
        if (pass == 0 || seconds < best)
            best = seconds;
    }
    printf("frames %ld junk %ld seconds %.6f\n", frames, junk, best);
    return 0;
}
