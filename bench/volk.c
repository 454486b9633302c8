/* Frames of the test stream from their symbols, by VOLK's Viterbi decoder and libfec's Reed-Solomon decoder, which are told
   where each frame begins. Usage: volk FRAMES ROUNDS < SYMBOLS > FRAMES. Each round does all frames, and the last one's
   are written. */
#include <fec.h>
#include <stdio.h>
#include <stdlib.h>
#include <string.h>
#include <volk/volk.h>

enum { FRAME = 16384, STEPS = FRAME / 2, TAIL = 6, BLOCK = 1020, WORDS = 4, WORD = 255, INFORMATION = 892 };

static unsigned char *metrics, *other_metrics, *branches, *decisions, *symbols;
static unsigned char sequence[BLOCK];

static void prepare(void)
{
    size_t alignment = volk_get_alignment();
    metrics = volk_malloc(64, alignment);
    other_metrics = volk_malloc(64, alignment);
    branches = volk_malloc(64, alignment);
    decisions = volk_malloc(8 * (STEPS + TAIL), alignment);
    symbols = volk_malloc(2 * (STEPS + TAIL), alignment);
    for (int state = 0; state < 32; state++) {
        branches[state] = __builtin_parity((2 * state) & 0x4f) ? 255 : 0;
        branches[32 + state] = __builtin_parity((2 * state) & 0x6d) ? 255 : 0;
    }
    /* the pseudo-randomiser of CCSDS 131.0-B: x^8 + x^7 + x^5 + x^3 + 1, from all ones */
    unsigned register_bits = 0xff;
    for (int place = 0; place < BLOCK; place++) {
        for (int bit = 0; bit < 8; bit++) {
            sequence[place] = sequence[place] << 1 | (register_bits & 1);
            unsigned next = (register_bits ^ register_bits >> 3 ^ register_bits >> 5 ^ register_bits >> 7) & 1;
            register_bits = register_bits >> 1 | next << 7;
        }
    }
}

/* The bits of a frame and its marker, from the decisions and the state in which the next marker's first bits end. */
static void lead_back(unsigned char *bytes)
{
    unsigned state = 0x06; /* (the first six bits of 1A) */
    memset(bytes, 0, STEPS / 8);
    for (int step = STEPS + TAIL - 1; step >= 0; step--) {
        unsigned word = ((unsigned *)decisions)[2 * step + state / 32];
        unsigned bit = state & 1;
        if (step < STEPS)
            bytes[step / 8] |= bit << (7 - step % 8);
        state = state >> 1 | ((word >> state % 32) & 1) << 5;
    }
}

static int restore(const signed char *from, unsigned char *frame)
{
    static unsigned char bytes[STEPS / 8];
    for (int place = 0; place < 2 * (STEPS + TAIL); place++) {
        int level = from[place] + 128;
        symbols[place] = place % 2 ? 255 - level : level; /* (the second symbol of each pair is complemented) */
    }
    memset(metrics, 31, 64);
    memset(decisions, 0, 8 * (STEPS + TAIL));
    volk_8u_x4_conv_k7_r2_8u(other_metrics, metrics, symbols, decisions, STEPS + TAIL, 0, branches);
    lead_back(bytes);
    unsigned char *block = bytes + 4, word[WORD];
    for (int place = 0; place < BLOCK; place++)
        block[place] ^= sequence[place];
    for (int number = 0; number < WORDS; number++) {
        for (int place = 0; place < WORD; place++)
            word[place] = block[WORDS * place + number];
        if (decode_rs_ccsds(word, NULL, 0, 0) < 0)
            return 0;
        for (int place = 0; place < WORD; place++)
            block[WORDS * place + number] = word[place];
    }
    memcpy(frame, block, INFORMATION);
    return 1;
}

int main(int argc, char **argv)
{
    if (argc != 3)
        return 2;
    size_t count = atoi(argv[1]);
    int rounds = atoi(argv[2]);
    /* (symbols of 0 stand after the last frame) */
    signed char *stream = calloc(count * FRAME + 2 * TAIL, 1);
    unsigned char *frames = malloc(count * INFORMATION);
    if (!stream || !frames || fread(stream, 1, count * FRAME, stdin) != count * FRAME)
        return 1;
    prepare();
    for (int round = 0; round < rounds; round++)
        for (size_t frame = 0; frame < count; frame++)
            if (!restore(stream + frame * FRAME, frames + frame * INFORMATION))
                fprintf(stderr, "frame %zu is lost\n", frame);
    return fwrite(frames, INFORMATION, count, stdout) != count;
}
