/* Decodes the coded lines on standard input ROUNDS times with libaec.
   Usage: lines BITS BLOCK COLUMNS LINES ROUNDS. COLUMNS is a multiple of BLOCK. It prints a checksum of the samples. */
#include <libaec.h>
#include <stdint.h>
#include <stdio.h>
#include <stdlib.h>

int main(int argc, char **argv)
{
    if (argc != 6)
        return 2;
    unsigned bits = atoi(argv[1]), block = atoi(argv[2]), columns = atoi(argv[3]), lines = atoi(argv[4]);
    int rounds = atoi(argv[5]);
    size_t most = 1 << 28, size = 0, got;
    unsigned char *coded = malloc(most);
    size_t count = (size_t)columns * lines;
    size_t each = bits > 8 ? 2 : 1;
    unsigned char *samples = malloc(count * each + 1);
    while ((got = fread(coded + size, 1, most - size, stdin)) > 0)
        size += got;
    for (int round = 0; round < rounds; round++) {
        struct aec_stream stream = {0};
        stream.next_in = coded;
        stream.avail_in = size;
        stream.next_out = samples;
        stream.avail_out = count * each;
        stream.bits_per_sample = bits;
        stream.block_size = block;
        stream.rsi = columns / block;
        stream.flags = AEC_DATA_PREPROCESS | AEC_DATA_MSB | AEC_NOT_ENFORCE;
        if (aec_buffer_decode(&stream) != AEC_OK)
            return 1;
    }
    uint64_t sum = 0;
    for (size_t k = 0; k < count; k++)
        sum = sum * 31 + (each == 2 ? samples[2 * k] << 8 | samples[2 * k + 1] : samples[k]);
    printf("lines true %d %016lx\n", rounds, (unsigned long)sum);
    return 0;
}
