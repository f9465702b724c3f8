/* One call, so many times: calls CALL TEXT TIMES, where CALL is canonical, same, infer, explain, arrays or from (arrays, of
 * the text's). It prints how often one call took memory; calls.sh has its instructions counted. -DGEOS has GEOS read the
 * text and write it. */
#include <stdio.h>
#include <stdlib.h>
#include <string.h>

void *__real_malloc(size_t size);
void *__real_realloc(void *block, size_t size);
static unsigned long allocations;
void *__wrap_malloc(size_t size) { return allocations++, __real_malloc(size); }
void *__wrap_realloc(void *block, size_t size) { return allocations++, __real_realloc(block, size); }

#ifdef GEOS
#include <geos_c.h>
static GEOSContextHandle_t geos;
static GEOSWKTReader *reader;
static GEOSWKTWriter *writer;

static void start(void) {
    geos = GEOS_init_r();
    reader = GEOSWKTReader_create_r(geos);
    writer = GEOSWKTWriter_create_r(geos);
    GEOSWKTWriter_setTrim_r(geos, writer, 1);
}

static void call(const char *what, const char *text, size_t size) {
    GEOSGeometry *geometry = GEOSWKTReader_read_r(geos, reader, text);
    (void)what, (void)size;
    if (!geometry) return;
    GEOSFree_r(geos, GEOSWKTWriter_write_r(geos, writer, geometry));
    GEOSGeom_destroy_r(geos, geometry);
}
#else
#include "wkt.h"

static WktSizes sizes;
static int filled;
static int64_t numbers[64];
static size_t rings[8], polygons[8];

static void start(void) {}

static void fill(const uint8_t *text, size_t size) {
    wkt_arrays(text, size, 6, &sizes, numbers, 64, rings, 8, polygons, 8);
}

static void call(const char *what, const char *text, size_t size) {
    static uint8_t out[4096];
    const uint8_t *bytes = (const uint8_t *)text;
    size_t needed, end;
    uint32_t one, other;
    switch (*what) {
    case 'c': wkt_canonical(bytes, size, 18, out, sizeof out, &needed, &end); break;
    case 's': wkt_same(bytes, size, bytes, size, 18, &one); break;
    case 'i': wkt_infer(bytes, size, &one, &other); break;
    case 'a': fill(bytes, size); break;
    case 'f':
        if (!filled) filled = 1, fill(bytes, size);
        wkt_from_arrays(sizes.kind, sizes.dimension, numbers, sizes.numbers, rings, sizes.rings, polygons,
                        sizes.polygons, 6, out, sizeof out, &needed);
        break;
    default:
#ifdef WKT_HAS_EXPLAIN
        wkt_explain(bytes, size, 18, &one, &needed, &end, &other);
#endif
        break;
    }
}
#endif

int main(int count, char **words) {
    unsigned long times = count > 3 ? strtoul(words[3], NULL, 10) : 1, i;
    const char *text = count > 2 ? words[2] : "";
    size_t size = strlen(text);
    start();
    call(words[1], text, size);
    allocations = 0;
    call(words[1], text, size);
    printf("%lu", allocations);
    for (i = 0; i < times; i++) call(words[1], text, size);
    return 0;
}
