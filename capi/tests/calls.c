/* Every function and every status, with values worked by hand. It also refuses each allocation in turn: link it, with
 * the other files of this folder, with -Wl,--wrap=malloc -Wl,--wrap=realloc. */
#include "calls.h"

long allocations;

#if !PORTABLE
#ifdef __cplusplus
extern "C" {
#endif
void *__real_malloc(size_t size);
void *__real_realloc(void *block, size_t size);
void *__wrap_malloc(size_t size);
void *__wrap_realloc(void *block, size_t size);
#ifdef __cplusplus
}
#endif

static long refuse_at; /* 0 refuses none */

void *__wrap_malloc(size_t size) { return ++allocations == refuse_at ? NULL : __real_malloc(size); }
void *__wrap_realloc(void *block, size_t size) {
    return ++allocations == refuse_at ? NULL : __real_realloc(block, size);
}
#endif

uint8_t out[ROOM];
size_t needed, end_at;
int64_t ends[ROWS + 1];
wkt_status statuses[ROWS];
static int checks;

void check(int holds, const char *what, const char *file, int line) {
    checks++;
    if (!holds) {
        printf("%s, line %d: %s\n", file, line, what);
        exit(1);
    }
}

/* Whether the buffer begins with the text, and is as it was after it. */
int holds(const char *text) {
    size_t i = strlen(text);
    if (needed != i || memcmp(out, text, i)) return 0;
    for (; i < ROOM; i++)
        if (out[i] != '#') return 0;
    return 1;
}

int untouched(void) {
    size_t i;
    for (i = 0; i < ROOM; i++)
        if (out[i] != '#') return 0;
    return 1;
}

#if !PORTABLE
/* One call of each function over a text that takes memory. */
static wkt_status call(int which) {
    /* More than 200 bytes: a shorter one takes no memory. */
#define SPACES "                                                  "
    static const char text[] = "MULTIPOLYGON(((0 0,4 0,0 4,0 0),(1 1,2 1,1 2,1 1)),EMPTY)" SPACES SPACES SPACES;
    static const int64_t numbers[6] = {1, 2, 3, 4, 5, 6};
    static const size_t rings[2] = {0, 3}, polygons[2] = {0, 1};
    uint8_t got_some[ROOM];
    int64_t got[16];
    size_t got_rings[3], got_polygons[3];
    uint32_t same;
    WktSizes sizes;
    uint32_t message, hint;
    size_t start, stop;
    /* What a text is read as takes memory, however short it is. */
    static const char in_dialects[] = "SRID=1;MULTIPOINT(1e1 2 3,nan nan nan)";
    const uint32_t all = WKT_EWKT | WKT_EXPONENTS | WKT_NAN;
    switch (which) {
    case 0: return wkt_canonical(BYTES(text), 6, out, ROOM, &needed, &end_at);
    case 1: return wkt_same(BYTES(text), BYTES(text), 6, &same);
    case 2: return wkt_lines(BYTES(text), 6, out, ROOM, &needed);
    case 3: {
        const int64_t offsets[3] = {0, (int64_t)sizeof text - 1, (int64_t)sizeof text - 1};
        return wkt_column_canonical(BYTES(text), offsets, 3, NULL, 0, 6, out, ROOM, ends, 3, statuses, 2, &needed);
    }
    case 4: {
        /* One row: of a text that is refused no arrays are needed, so memory may end there. */
        const int64_t offsets[2] = {0, (int64_t)sizeof text - 1};
        static const size_t fit[6] = {2, 2, 2, 1, 1, 1};
        return fill_of(text, offsets, NULL, 1, 6, 32, 32, 32, fit);
    }
    case 5: {
        static const uint32_t kinds[2] = {1, 1}, dimensions[2] = {0, 0};
        static const int64_t number_ends[3] = {0, 6, 6}, list_ends[3] = {0, 2, 2};
        return wkt_column_from_arrays(kinds, 2, dimensions, 2, numbers, 6, number_ends, 3, rings, 2, list_ends, 3,
                                      polygons, 2, list_ends, 3, NULL, 0, 6, out, ROOM, ends, 3, statuses, 2, &needed);
    }
    case 7: {
        size_t taken, written;
        wkt_status status = wkt_lines_some(BYTES(text), 6, 1, got_some, ROOM, &taken, &written);
        return status;
    }
    case 9: return wkt_canonical(BYTES(in_dialects), all, out, ROOM, &needed, &end_at);
    case 10: return wkt_same(BYTES(in_dialects), BYTES(in_dialects), all, &same);
    case 11:
        return wkt_arrays(BYTES("SRID=1;LINESTRING(1e1 2 3)"), all, &sizes, got, 16, got_rings, 3, got_polygons, 3);
    case 12: return wkt_explain(BYTES("SRID=1;POINT(1e1 2 3"), all, &message, &start, &stop, &hint);
    case 13: return wkt_hint(BYTES("SRID=1;POINT(1e1 2 3"), all, &hint);
    case 14: return wkt_canonical(BYTES("POINT(1e1 2)" SPACES SPACES SPACES SPACES), all, out, ROOM, &needed, &end_at);
    case 6: return wkt_arrays(BYTES(text), 6, &sizes, got, 16, got_rings, 3, got_polygons, 3);
    default: return wkt_from_arrays(1, 0, numbers, 6, rings, 2, polygons, 2, 6, out, ROOM, &needed);
    }
}

static void refusals(void) {
    int which;
    for (which = 0; which < 15; which++) {
        long all, n;
        allocations = 0;
        CHECK(call(which) == WKT_OK);
        all = allocations;
        CHECK(all > 0);
        for (n = 1; n <= all; n++) {
            wkt_status status;
            memset(out, '#', ROOM);
            allocations = 0;
            refuse_at = n;
            status = call(which);
            refuse_at = 0;
            CHECK(status == WKT_NO_MEMORY && untouched() && (which != 4 || arrays_untouched()));
        }
    }
}

#endif

int main(void) {
#ifdef PROCESSOR
    test_processor();
#endif
    CHECK(wkt_supported() == 1);
    test_texts();
    test_explain();
    test_dialects();
    test_events();
    test_columns();
    test_pointers();
#if !PORTABLE
    refusals();
#endif
    printf("%d checks hold\n", checks);
    return 0;
}
