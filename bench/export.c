/* The images that lr_bench exports, written as PGM by a plain program: the file's checksum (CRC-16, a byte at a time from a
   table), its pixels as 16-bit numbers, and their text, all in memory. Coded lines are decoded by libaec where it is compiled
   with -DAEC. It prints what lr_bench prints.
   Usage: export ROUNDS, or export-lossless BITS BLOCK COLUMNS LINES ROUNDS with LINES coded lines on standard input. */
#ifdef AEC
#include <libaec.h>
#endif
#include <inttypes.h>
#include <stdint.h>
#include <stdio.h>
#include <stdlib.h>
#include <string.h>

enum { COLUMNS = 1024, PIECES = 32, SUMMED = 64 };

static uint16_t table[256];

static void fill_table(void)
{
    for (unsigned byte = 0; byte < 256; byte++) {
        uint16_t crc = byte << 8;
        for (int bit = 0; bit < 8; bit++)
            crc = crc & 0x8000 ? crc << 1 ^ 0x1021 : crc << 1;
        table[byte] = crc;
    }
}

static uint16_t crc16(const uint8_t *bytes, size_t count)
{
    uint16_t crc = 0xFFFF;
    for (size_t k = 0; k < count; k++)
        crc = crc << 8 ^ table[crc >> 8 ^ bytes[k]];
    return crc;
}

static uint64_t next(uint64_t state) { return state * 6364136223846793005u + 1442695040888963407u; }

/* The text of the pixels after its head, and its length. */
static size_t write_text(uint8_t *text, const uint16_t *pixels, unsigned bits, unsigned columns, unsigned lines)
{
    size_t size = sprintf((char *)text, "P5\n%u %u\n%u\n", columns, lines, (1u << bits) - 1);
    size_t count = (size_t)columns * lines;
    if (bits <= 8) {
        for (size_t k = 0; k < count; k++)
            text[size + k] = pixels[k];
        return size + count;
    }
    for (size_t k = 0; k < count; k++) {
        text[size + 2 * k] = pixels[k] >> 8;
        text[size + 2 * k + 1] = pixels[k];
    }
    return size + 2 * count;
}

/* The checksum with a round more: its status, the length of the text, and its ends. */
static uint64_t sum_with(uint64_t sum, const uint8_t *text, size_t size)
{
    sum = sum * 31 * 31 + size;
    for (size_t k = 0; k < SUMMED; k++)
        sum = sum * 31 + text[k];
    for (size_t k = size - SUMMED; k < size; k++)
        sum = sum * 31 + text[k];
    return sum;
}

static int plain(int rounds)
{
    size_t count = COLUMNS * COLUMNS;
    uint8_t *file = malloc(count), *copy = malloc(count), *text = malloc(count + 100);
    uint16_t *pixels = malloc(2 * count), stored;
    uint64_t state = 1, sum = 0;
    for (size_t k = 0; k < count; k++) {
        state = next(state);
        file[k] = state >> 56;
    }
    stored = crc16(file, count);
    for (int round = 0; round < rounds; round++) {
        memcpy(copy, file, count);
        if (crc16(copy, count) != stored)
            return 1;
        for (size_t k = 0; k < count; k++)
            pixels[k] = copy[k];
        sum = sum_with(sum, text, write_text(text, pixels, 8, COLUMNS, COLUMNS));
    }
    printf("export %d %016" PRIx64 "\n", rounds, sum);
    return 0;
}

#ifdef AEC
static int lossless(char **words)
{
    unsigned bits = atoi(words[0]), block = atoi(words[1]), columns = atoi(words[2]), lines = atoi(words[3]);
    int rounds = atoi(words[4]);
    static uint8_t piece[65536], file[PIECES * 65536];
    size_t size = fread(piece, 1, sizeof piece, stdin), count = (size_t)columns * lines, each = bits > 8 ? 2 : 1;
    uint8_t *samples = malloc(count * each), *text = malloc(PIECES * count * 2 + 100);
    uint16_t *pixels = malloc(PIECES * count * 2), stored;
    uint64_t sum = 0;
    for (int k = 0; k < PIECES; k++)
        memcpy(file + k * size, piece, size);
    stored = crc16(file, PIECES * size);
    for (int round = 0; round < rounds; round++) {
        if (crc16(file, PIECES * size) != stored)
            return 1;
        for (int k = 0; k < PIECES; k++) {
            struct aec_stream stream = {0};
            stream.next_in = file + k * size;
            stream.avail_in = size;
            stream.next_out = samples;
            stream.avail_out = count * each;
            stream.bits_per_sample = bits;
            stream.block_size = block;
            stream.rsi = columns / block;
            stream.flags = AEC_DATA_PREPROCESS | AEC_DATA_MSB | AEC_NOT_ENFORCE;
            if (aec_buffer_decode(&stream) != AEC_OK)
                return 1;
            for (size_t j = 0; j < count; j++)
                pixels[k * count + j] = each == 2 ? samples[2 * j] << 8 | samples[2 * j + 1] : samples[j];
        }
        sum = sum_with(sum, text, write_text(text, pixels, bits, columns, PIECES * lines));
    }
    printf("export-lossless %d %016" PRIx64 "\n", rounds, sum);
    return 0;
}
#endif

int main(int count, char **words)
{
    fill_table();
    if (count == 3 && !strcmp(words[1], "export"))
        return plain(atoi(words[2]));
#ifdef AEC
    if (count == 7 && !strcmp(words[1], "export-lossless"))
        return lossless(words + 2);
#endif
    fprintf(stderr, "usage: export ROUNDS, or export-lossless BITS BLOCK COLUMNS LINES ROUNDS\n");
    return 2;
}
