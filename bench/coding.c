/* Codes the lines on standard input ROUNDS times with libaec, each line by itself.
   Usage: coding BITS BLOCK COLUMNS LINES ROUNDS. COLUMNS is a multiple of BLOCK. It prints how many bytes all lines have. */
#include <libaec.h>
#include <stdint.h>
#include <stdio.h>
#include <stdlib.h>

int main(int argc, char **argv)
{
    if (argc != 6)
        return 2;
    unsigned bits = atoi(argv[1]), block = atoi(argv[2]), columns = atoi(argv[3]), lines = atoi(argv[4]);
    int rounds = atoi(argv[5]);
    size_t each = bits > 8 ? 2 : 1, row = columns * each, room = 2 * row + 1024, total = 0;
    unsigned char *samples = malloc(row * lines + 1), *coded = malloc(room);
    if (fread(samples, 1, row * lines, stdin) != row * lines)
        return 1;
    for (int round = 0; round < rounds; round++) {
        total = 0;
        for (unsigned line = 0; line < lines; line++) {
            struct aec_stream stream = {0};
            stream.next_in = samples + row * line;
            stream.avail_in = row;
            stream.next_out = coded;
            stream.avail_out = room;
            stream.bits_per_sample = bits;
            stream.block_size = block;
            stream.rsi = columns / block;
            stream.flags = AEC_DATA_PREPROCESS | AEC_DATA_MSB | AEC_NOT_ENFORCE;
            if (aec_buffer_encode(&stream) != AEC_OK)
                return 1;
            total += stream.total_out;
        }
    }
    printf("%zu\n", total);
    return 0;
}
