/* The same lines by GEOS's C API, in one process: WKTReader, WKTWriter (trim, 15 places). geos_lines < input > output.
 * gcc -O2 geos_lines.c -lgeos_c -o geos_lines */
#include <geos_c.h>
#include <stdio.h>
#include <stdlib.h>
#include <string.h>
#include <time.h>

static double now(void) {
    struct timespec t;
    clock_gettime(CLOCK_MONOTONIC, &t);
    return t.tv_sec + t.tv_nsec / 1e9;
}

int main(int argc, char **argv) {
    int places = argc > 1 ? atoi(argv[1]) : 15;
    size_t room = 1 << 16, n = 0, k;
    char *in = malloc(room);
    while ((k = fread(in + n, 1, room - n - 1, stdin)) > 0)
        if ((n += k) >= room - 1) in = realloc(in, room *= 2);
    in[n] = 0;
    char *out = malloc(4 * n + 64), *o = out;
    GEOSContextHandle_t h = GEOS_init_r();
    GEOSWKTReader *r = GEOSWKTReader_create_r(h);
    GEOSWKTWriter *w = GEOSWKTWriter_create_r(h);
    GEOSWKTWriter_setTrim_r(h, w, 1);
    GEOSWKTWriter_setRoundingPrecision_r(h, w, places);
    GEOSWKTWriter_setOutputDimension_r(h, w, 3);
    double t = now();
    size_t lines = 0;
    for (char *p = in, *e = in + n; p < e; lines++) {
        char *q = memchr(p, '\n', e - p);
        if (!q) q = e;
        *q = 0;
        GEOSGeometry *g = GEOSWKTReader_read_r(h, r, p);
        char *s = g ? GEOSWKTWriter_write_r(h, w, g) : NULL;
        size_t m = s ? strlen(s) : 7;
        memcpy(o, s ? s : "refused", m);
        o[m] = '\n';
        o += m + 1;
        if (s) GEOSFree_r(h, s);
        if (g) GEOSGeom_destroy_r(h, g);
        p = q + 1;
    }
    fprintf(stderr, "GEOS %s: %zu lines, %zu bytes in, %zu out, %.3f s\n", GEOSversion(), lines, n, (size_t)(o - out),
            now() - t);
    fwrite(out, 1, o - out, stdout);
    return 0;
}
