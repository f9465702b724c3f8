/* The processor's cycles that wkt_lines_some takes for the lines of standard input, which are in memory: gcc -O2 -I../out
 * cycles.c ../out/libwkt.a. Each block of 128 KiB is answered 40 times, and the least counts: what else the machine does
 * makes no turn shorter. A cycle is what an addition takes that waits for the one before; not of a constant, which newer
 * processors add several at a time. The ticks of rdtsc have another length, so additions are timed before each block. x86-64
 * alone. */
#include "wkt.h"
#include <stdio.h>
#include <stdlib.h>
#include <string.h>
#include <x86intrin.h>

enum { BLOCK = 1 << 17, TURNS = 40, ADDITIONS = 100000 };

static uint64_t least(uint64_t one, uint64_t other) { return one < other ? one : other; }

/* The ticks of so many additions, each of which waits for the one before. */
static uint64_t additions(void) {
    uint64_t best = UINT64_MAX, sum = 0;
    for (int turn = 0; turn < TURNS; turn++) {
        uint64_t begun = __rdtsc();
        for (int i = 0; i < ADDITIONS / 10; i++)
            __asm__ volatile("add %0, %0\n add %0, %0\n add %0, %0\n add %0, %0\n add %0, %0\n"
                             "add %0, %0\n add %0, %0\n add %0, %0\n add %0, %0\n add %0, %0"
                             : "+r"(sum));
        best = least(best, __rdtsc() - begun);
    }
    return best;
}

/* The ticks of the answers to a block of lines. */
static uint64_t answers(const uint8_t *block, size_t length, uint8_t *out, size_t room) {
    uint64_t best = UINT64_MAX;
    for (int turn = 0; turn < TURNS; turn++) {
        size_t taken, written;
        uint64_t begun = __rdtsc();
        if (wkt_lines_some(block, length, 18, 1, out, room, &taken, &written) || taken != length) exit(1);
        best = least(best, __rdtsc() - begun);
    }
    return best;
}

int main(void) {
    size_t room = 1 << 16, n = 0, k;
    uint8_t *in = (uint8_t *)malloc(room);
    while (in && (k = fread(in + n, 1, room - n, stdin)) > 0)
        if ((n += k) == room) in = (uint8_t *)realloc(in, room *= 2);
    uint8_t *out = (uint8_t *)malloc(2 * n + 64);
    double cycles = 0;
    if (!in || !out) return 2;
    for (uint8_t *at = in, *end = in + n; at < end;) {
        uint8_t *last = end - at > BLOCK ? (uint8_t *)memrchr(at, '\n', BLOCK) : NULL;
        size_t length = last ? (size_t)(last + 1 - at) : (size_t)(end - at);
        double tick = (double)ADDITIONS / additions();
        cycles += tick * answers(at, length, out, 2 * n + 64);
        at += length;
    }
    printf("%.0f\n", cycles);
    return 0;
}
