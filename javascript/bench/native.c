/* The figures of the native library: native FILE.. */
#include "wkt.h"
#include <stdio.h>
#include <stdlib.h>
#include <string.h>
#include <time.h>

static double now(void) {
    struct timespec t;
    clock_gettime(CLOCK_PROCESS_CPUTIME_ID, &t);
    return (double)t.tv_sec + (double)t.tv_nsec * 1e-9;
}

/* MB/s of wkt_lines_some, the best of the runs of two seconds of processor time. */
static int lines(const char *name) {
    FILE *file = fopen(name, "rb");
    size_t n, taken, written;
    double least = 1e9, end = now() + 2;
    uint8_t *in, *out;
    if (!file || fseek(file, 0, SEEK_END)) return 1;
    n = (size_t)ftell(file);
    rewind(file);
    in = malloc(n);
    out = malloc(2 * n + 100);
    if (!in || !out || fread(in, 1, n, file) != n) return 1;
    fclose(file);
    do {
        double start = now(), took;
        if (wkt_lines_some(in, n, 18, 1, out, 2 * n + 100, &taken, &written) != WKT_OK || taken != n) return 1;
        took = now() - start;
        if (took < least) least = took;
    } while (now() < end);
    printf("%s: %.0f MB/s\n", name, (double)n / 1e6 / least);
    free(in);
    free(out);
    return 0;
}

static void calls(void) {
    const char *texts[] = {"point ( 1   2.50 )", "POINT(-117.123456 33.654321)", "POLYGON((0 0,4 0,2 4,0 0))"};
    uint8_t out[200];
    size_t i, needed, at;
    int k;
    for (i = 0; i < 3; i++) {
        double least = 1e9, end = now() + 2;
        do {
            double start = now(), took;
            for (k = 0; k < 1000; k++)
                wkt_canonical((const uint8_t *)texts[i], strlen(texts[i]), 18, out, 200, &needed, &at);
            took = now() - start;
            if (took < least) least = took;
        } while (now() < end);
        printf("%s: %.0f ns\n", texts[i], least * 1e6);
    }
}

int main(int count, char **names) {
    int i;
    for (i = 1; i < count; i++)
        if (lines(names[i])) return 1;
    calls();
    return 0;
}
