// The lock in C: `lock noise ROUNDS` and `lock locked ROUNDS` feed the symbols that lr_bench feeds, and print the same
// line.
#include <stdbool.h>
#include <stdint.h>
#include <stdio.h>
#include <stdlib.h>
#include <string.h>

enum { FRAME = 16384, WINDOW = 16332, ROOM = 65536, PIECE = 2 * FRAME };

static int8_t piece[PIECE], room[ROOM], window[WINDOW];
static bool tail[52];
static size_t kept, passed;
static uint64_t place, windows, sum;
static bool held, positive;
static unsigned misses;

static uint64_t after(uint64_t state) { return state * 6364136223846793005u + 1442695040888963407u; }

// puts the symbols of bits after the others, and keeps the last six bits in the state
static size_t put(int8_t *symbols, size_t at, unsigned *state, const uint8_t *bytes, size_t count) {
    for (size_t k = 0; k < 8 * count; k++) {
        unsigned seven = 2 * *state + (bytes[k / 8] >> (7 - k % 8) & 1);
        symbols[at++] = __builtin_parity(seven & 0x4F) ? 100 : -100;
        symbols[at++] = __builtin_parity(seven & 0x6D) ? -100 : 100;
        *state = seven % 64;
    }
    return at;
}

static void block_of_7f(uint8_t block[1020]) {
    uint8_t a[8160];
    for (int i = 0; i < 8160; i++) a[i] = i < 8 ? 1 : a[i - 1] ^ a[i - 3] ^ a[i - 5] ^ a[i - 8];
    for (int k = 0; k < 1020; k++) {
        block[k] = 0x7F;
        for (int j = 0; j < 8; j++) block[k] ^= a[8 * k + j] << (7 - j);
    }
}

static void fill(bool coded) {
    const uint8_t marker[4] = {0x1A, 0xCF, 0xFC, 0x1D};
    uint8_t block[1020];
    uint64_t draw = 77;
    unsigned state = 0;
    block_of_7f(block);
    put(piece, 0, &state, marker, 4);
    for (int i = 0; i < 52; i++) tail[i] = piece[12 + i] > 0;
    state = 0;
    for (size_t at = 0; at < PIECE;) {
        at = put(piece, at, &state, marker, 4);
        at = put(piece, at, &state, block, 1020);
    }
    for (size_t at = 0; at < PIECE; at++) {
        draw = after(draw);
        if (!coded) piece[at] = (int)(draw >> 56) - 128;
        else if (draw >> 56 < 8) piece[at] = -piece[at];
    }
}

static void feed(void) {
    if (kept + PIECE > ROOM) {
        memmove(room, room + passed, kept - passed);
        kept -= passed;
        passed = 0;
    }
    memcpy(room + kept, piece, PIECE);
    kept += PIECE;
}

// 1 for the positive polarity, 0 for the other, -1 where neither has enough hits
static int polarity_at(const int8_t *symbols, unsigned least) {
    uint8_t first = 0, second = 0;
    for (int i = 0; i < 52; i++) {
        int8_t above = -(symbols[12 + i] > 0), below = -(symbols[12 + i] < 0), one = -tail[i];
        first -= (above & one) | (below & ~one);
        second -= (below & one) | (above & ~one);
    }
    return first >= least ? 1 : second >= least ? 0 : -1;
}

static void show(void) {
    const int8_t *symbols = room + passed + 64;
    size_t there = kept - passed - 64 < WINDOW ? kept - passed - 64 : WINDOW;
    for (size_t i = 0; i < there; i++) {
        int8_t value = symbols[i] < -127 ? -127 : symbols[i];
        window[i] = positive ? value : -value;
    }
    memset(window + there, 0, WINDOW - there);
    windows++;
    sum = (sum * 31 + place) * 31 + (uint64_t)(window[0] + 128);
}

static bool next_window(void) {
    const size_t needed = FRAME + 12;
    if (held && kept - passed < needed) return false;
    int seen = held ? polarity_at(room + passed, 37) : -1;
    if (seen >= 0) {
        positive = seen, misses = 0;
    } else if (held && misses < 3) {
        misses++;
    } else {
        if (held) passed++, place++;
        held = false;
        while (passed + needed <= kept && (seen = polarity_at(room + passed, 45)) < 0) passed++, place++;
        if (seen < 0) return false;
        held = true, positive = seen, misses = 0;
    }
    show();
    passed += FRAME, place += FRAME;
    return true;
}

int main(int count, char **args) {
    unsigned rounds = count > 2 ? atoi(args[2]) : 0;
    fill(count > 1 && strcmp(args[1], "locked") == 0);
    for (unsigned k = 0; k < rounds; k++) {
        feed();
        for (int n = 0; n < 4 && next_window(); n++) {}
    }
    printf("%s %u windows %llu %016llx\n", count > 1 ? args[1] : "noise", rounds, (unsigned long long)windows, (unsigned long long)sum);
}
