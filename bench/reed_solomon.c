// The words that lr_bench draws, restored by libfec (Debian's libfec-dev) in place of lr_rs.
// Usage: NAME ROUNDS, with NAME rs0, rs1, rs8, rs16 or rs17. Prints the same line: up to sixteen wrong bytes the
// checksum has to be the same; beyond them libfec answers as it does.
#include <fec.h>
#include <inttypes.h>
#include <stdint.h>
#include <stdio.h>
#include <stdlib.h>
#include <string.h>

enum { WORDS = 16 };

static uint64_t next(uint64_t state) { return state * 6364136223846793005u + 1442695040888963407u; }

static void draw(uint8_t word[255], uint64_t state, unsigned wrong) {
    for (unsigned i = 0; i < 223; i++) {
        state = next(state);
        word[i] = state >> 56;
    }
    encode_rs_ccsds(word, word + 223, 0);
    state = next(state);
    unsigned first = (state >> 56) % 255;
    for (unsigned k = 0; k < wrong; k++) {
        state = next(state);
        word[(first + 15 * k) % 255] ^= 1 + (state >> 56) % 255;
    }
}

int main(int count, char **words) {
    if (count != 3 || strncmp(words[1], "rs", 2)) {
        fprintf(stderr, "usage: NAME ROUNDS\n");
        return 2;
    }
    unsigned wrong = atoi(words[1] + 2), rounds = atoi(words[2]);
    uint8_t drawn[WORDS][255], word[255];
    uint64_t start = 1, mix = 0;
    for (unsigned i = 0; i < WORDS; i++) {
        draw(drawn[i], start, wrong);
        start = next(start) ^ 0x5555;
    }
    for (unsigned round = 0; round < rounds; round++) {
        memcpy(word, drawn[round % WORDS], 255);
        int answer = decode_rs_ccsds(word, NULL, 0, 0);
        mix = mix * 31 + (answer < 0 ? 255 : (unsigned)answer);
        mix = mix * 31 + word[round % 255];
    }
    printf("rs%u %u %016" PRIx64 "\n", wrong, rounds, mix);
    return 0;
}
