/* wkt_lines, and wkt_canonical line by line, over standard input: gcc -O2 -I.. time_lines.c ../out/libwkt.a */
#include "wkt.h"
#include <stdio.h>
#include <stdlib.h>
#include <string.h>
#include <time.h>

static double now(void) {
    struct timespec t;
    clock_gettime(CLOCK_MONOTONIC, &t);
    return t.tv_sec + t.tv_nsec / 1e9;
}

int main(int argc, char **argv) {
    const char *what = argc > 1 ? argv[1] : "lines";
    uint32_t places = argc > 2 ? atoi(argv[2]) : 18;
    size_t room = 1 << 16, n = 0, k;
    uint8_t *in = (uint8_t *)malloc(room);
    while ((k = fread(in + n, 1, room - n, stdin)) > 0)
        if ((n += k) == room) in = (uint8_t *)realloc(in, room *= 2);
    size_t cap = 2 * n + 64, needed = 0, end, lines = 0, total = 0;
    uint8_t *out = (uint8_t *)malloc(cap);
    double t = now();
    if (!strcmp(what, "lines")) {
        if (wkt_lines(in, n, places, out, cap, &needed)) return 1;
        total = needed;
    } else {
        int64_t *numbers = (int64_t *)malloc(8 * n + 64);
        size_t *rings = (size_t *)malloc(8 * n + 64), *polygons = (size_t *)malloc(8 * n + 64);
        WktSizes z;
        for (uint8_t *p = in, *e = in + n; p < e; lines++) {
            uint8_t *q = (uint8_t *)memchr(p, '\n', e - p);
            if (!q) q = e;
            if (!strcmp(what, "canonical")) {
                if (!wkt_canonical(p, q - p, places, out, cap, &needed, &end)) total += needed;
            } else if (!wkt_arrays(p, q - p, places, &z, numbers, n, rings, n, polygons, n))
                total += z.numbers;
            p = q + 1;
        }
    }
    fprintf(stderr, "%s: %zu bytes in, %zu %s out, %.3f s\n", what, n, total,
            strcmp(what, "arrays") ? "bytes" : "numbers", now() - t);
    return 0;
}
