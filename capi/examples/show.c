/* cc -Icapi/out capi/examples/show.c capi/out/libwkt.a -o show */
#include "wkt.h"
#include <inttypes.h>
#include <stdio.h>
#include <stdlib.h>
#include <string.h>

#define TEXT(s) (const uint8_t *)(s), strlen(s)
#define COUNT(list) (sizeof list / sizeof *list)

/* Where a text is refused, what was expected there, and why. To the places WKT_WHOLE and dialects may be added. */
static void explain(const char *text, uint32_t places) {
    static const char *const expectations[] = WKT_EXPECTED;
    static const char *const hints[] = WKT_HINTS;
    uint32_t message, expected, hint;
    size_t start, stop;
    if (wkt_explain(TEXT(text), places, &message, &start, &stop, &expected) != WKT_OK) return;
    if (expected < COUNT(expectations)) printf(", at byte %zu %s was expected", start, expectations[expected]);
    if (wkt_hint(TEXT(text), places, &hint) != WKT_OK || hint == WKT_HINT_NONE || hint >= COUNT(hints)) return;
    printf(": ");
    printf(hints[hint], places % WKT_WHOLE);
}

static void canonical(const char *text, uint32_t places) {
    uint8_t out[256];
    size_t needed, end;
    wkt_status s = wkt_canonical(TEXT(text), places, out, sizeof out, &needed, &end);
    printf("%-28s %2u places: ", text, places % WKT_WHOLE);
    if (s == WKT_OK)
        printf("%.*s (ends at %zu)", (int)needed, out, end);
    else if (s <= WKT_LAST_REFUSAL) {
        printf("refused");
        explain(text, places);
    } else
        printf("status %u, %s", s, wkt_message(s));
    printf("\n");
}

int main(void) {
    canonical("point ( 10 -20.50 ) more", 6);
    canonical("POINT(1.0000005 2)", 6);
    canonical("POINT(1.0000005 2)", 6 | WKT_WHOLE);
    canonical("POINT(1.0000005 2)", 18);
    canonical("POINT(1)", 6);
    canonical("POINT(1 2 3)", 6);
    canonical("POINT(1,5 2,5)", 6);
    canonical("\xff", 6);
    canonical("POINT(1.0000005 170)", 36);
    canonical("POINT(1.0000005 180)", 36);
    canonical("POINT(1 2)", 37);

    uint32_t same, kind, dimension;
    wkt_same(TEXT("LINESTRING(1 2,3 4)"), TEXT("linestring (1.0 2, 3 +4)"), 6, &same);
    printf("same: %u\n", same);
    wkt_infer(TEXT("multipolygon zm empty"), &kind, &dimension);
    printf("infer: kind %u dimension %u\n", kind, dimension);

    const char *text = "MULTIPOLYGON(((0 0,4 0,0 4,0 0),(1 1,2 1,1 2,1 1)),((9 9,9.5 9,9 9.5,9 9)))";
    WktSizes z;
    wkt_status s = wkt_arrays(TEXT(text), 6, &z, NULL, 0, NULL, 0, NULL, 0);
    printf("arrays: status %u, kind %u, %zu numbers, %zu and %zu offsets\n", s, z.kind, z.numbers, z.rings, z.polygons);
    int64_t *numbers = (int64_t *)malloc(z.numbers * sizeof *numbers);
    size_t *rings = (size_t *)malloc(z.rings * sizeof *rings),
           *polygons = (size_t *)malloc(z.polygons * sizeof *polygons);
    s = wkt_arrays(TEXT(text), 6, &z, numbers, z.numbers, rings, z.rings, polygons, z.polygons);
    printf("status %u\nnumbers", s);
    for (size_t i = 0; i < z.numbers; i++) printf(" %" PRId64, numbers[i]);
    printf("\nrings");
    for (size_t i = 0; i < z.rings; i++) printf(" %zu", rings[i]);
    printf("\npolygons");
    for (size_t i = 0; i < z.polygons; i++) printf(" %zu", polygons[i]);
    uint8_t out[256];
    size_t needed;
    s = wkt_from_arrays(z.kind, z.dimension, numbers, z.numbers, rings, z.rings, polygons, z.polygons, 6, out,
                        sizeof out, &needed);
    printf("\nback: status %u %s\n", s, needed == strlen(text) && !memcmp(out, text, needed) ? "the same text" : "?");
    rings[1] = 3;
    s = wkt_from_arrays(z.kind, z.dimension, numbers, z.numbers, rings, z.rings, polygons, z.polygons, 6, out,
                        sizeof out, &needed);
    printf("another split: status %u %.*s\n", s, (int)needed, out);
    rings[1] = 99;
    s = wkt_from_arrays(z.kind, z.dimension, numbers, z.numbers, rings, z.rings, polygons, z.polygons, 6, out,
                        sizeof out, &needed);
    printf("no split: status %u\n", s);
    const char *lines = "point(1 2.50)\nnonsense\nPOINT EMPTY\n";
    s = wkt_lines(TEXT(lines), 6, out, sizeof out, &needed);
    printf("lines: status %u\n%.*s", s, (int)needed, out);
    free(numbers);
    free(rings);
    free(polygons);
    return 0;
}
