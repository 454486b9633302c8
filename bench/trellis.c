// The plain trellis in C: `trellis path WINDOWS` decodes drawn windows as lr_bench does, and prints the same line.
#include <stdint.h>
#include <stdio.h>
#include <stdlib.h>

enum { BITS = 8160, STEPS = BITS + 6, FAR = 508 * STEPS + 1, DRAWN = 64 };

static int8_t drawn[DRAWN][2 * STEPS];
static uint64_t words[STEPS];
static uint8_t bytes[BITS / 8];
static uint8_t pairs[32];  // the pairs of symbols of seven bits 2 * j, the newest as the least significant one

static void draw(uint64_t state, int8_t *window) {
    for (int i = 0; i < 2 * STEPS; i++) {
        state = state * 6364136223846793005u + 1442695040888963407u;
        int value = (int)(state >> 56) - 128;
        window[i] = value == -128 ? -127 : value;
    }
}

static uint64_t step(const uint32_t costs[4], const uint32_t old[64], uint32_t new[64]) {
    uint64_t word = 0;
    for (int j = 0; j < 32; j++) {
        uint32_t near = costs[pairs[j]], far = costs[3 - pairs[j]];
        uint32_t first = old[j] + near, second = old[j + 32] + far;
        new[2 * j] = second < first ? second : first;
        word |= (uint64_t)(second < first) << j;
        first = old[j] + far, second = old[j + 32] + near;
        new[2 * j + 1] = second < first ? second : first;
        word |= (uint64_t)(second < first) << (j + 32);
    }
    return word;
}

static void forward(const int8_t *window) {
    uint32_t rows[2][64];
    for (int s = 0; s < 64; s++) rows[0][s] = FAR;
    rows[0][29] = 0;
    for (int i = 0; i < STEPS; i++) {
        uint32_t zero = 127 + window[2 * i], one = 127 - window[2 * i];
        uint32_t then_zero = 127 + window[2 * i + 1], then_one = 127 - window[2 * i + 1];
        uint32_t costs[4] = {zero + then_zero, zero + then_one, one + then_zero, one + then_one};
        words[i] = step(costs, rows[i % 2], rows[1 - i % 2]);
    }
}

static unsigned before(uint64_t word, unsigned state) {
    return state / 2 + 32 * (word >> (state / 2 + 32 * (state % 2)) & 1);
}

static void nearest(const int8_t *window) {
    forward(window);
    unsigned state = 6;
    for (int i = STEPS - 1; i >= BITS; i--) state = before(words[i], state);
    for (int k = BITS / 8 - 1; k >= 0; k--) {
        uint8_t byte = 0;
        for (int j = 7; j >= 0; j--) {
            byte |= (state % 2) << (7 - j);
            state = before(words[8 * k + j], state);
        }
        bytes[k] = byte;
    }
}

int main(int count, char **args) {
    unsigned windows = count > 2 ? atoi(args[2]) : 0;
    uint64_t sum = 0;
    for (unsigned j = 0; j < 32; j++)
        pairs[j] = 2 * __builtin_parity(2 * j & 0x4F) + 1 - __builtin_parity(2 * j & 0x6D);
    for (unsigned k = 0; k < DRAWN; k++) draw(k + 1, drawn[k]);
    for (unsigned k = 0; k < windows; k++) {
        nearest(drawn[k % DRAWN]);
        for (int i = 0; i < BITS / 8; i++) sum = sum * 31 + bytes[i];
    }
    printf("path %u %016llx\n", windows, (unsigned long long)sum);
}
