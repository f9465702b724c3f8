/* What each function refuses before it reads anything, at each pointer and size of it in turn: a pointer that is NULL, a size
 * above PTRDIFF_MAX, and a processor that lacks something. */
#include "calls.h"

#define MOST 13
#define AT(type, which) ((type *)given[which])
#define OF(type, which) AT(type, which), sizes[which]

/* What the pointers of a call point to, and the size that is passed of each that has one. */
static uint64_t rooms[MOST][16];
static void *given[MOST];
static size_t sizes[MOST];

/* A function with its pointers in the order of its parameters: of each the width of an item, where w is that of a size_t and
 * u that of two words of 64 bits, or 0 of a result. */
typedef struct {
    wkt_status (*call)(void);
    const char *widths;
} function;

static wkt_status canonical(void) {
    return wkt_canonical(OF(uint8_t, 0), 6, OF(uint8_t, 1), AT(size_t, 2), AT(size_t, 3));
}
static wkt_status same(void) { return wkt_same(OF(uint8_t, 0), OF(uint8_t, 1), 6, AT(uint32_t, 2)); }
static wkt_status same_ends(void) {
    return wkt_same_ends(OF(uint8_t, 0), OF(uint8_t, 1), 6, AT(uint32_t, 2), AT(size_t, 3), AT(size_t, 4));
}
static wkt_status explain(void) {
    return wkt_explain(OF(uint8_t, 0), 6, AT(uint32_t, 1), AT(size_t, 2), AT(size_t, 3), AT(uint32_t, 4));
}
static wkt_status hint(void) { return wkt_hint(OF(uint8_t, 0), 6, AT(uint32_t, 1)); }
static wkt_status srid(void) { return wkt_srid(OF(uint8_t, 0), AT(uint32_t, 1), AT(size_t, 2)); }
static wkt_status infer(void) { return wkt_infer(OF(uint8_t, 0), AT(uint32_t, 1), AT(uint32_t, 2)); }
static wkt_status lines(void) { return wkt_lines(OF(uint8_t, 0), 6, OF(uint8_t, 1), AT(size_t, 2)); }
static wkt_status lines_some(void) {
    return wkt_lines_some(OF(uint8_t, 0), 6, 1, OF(uint8_t, 1), AT(size_t, 2), AT(size_t, 3));
}
static wkt_status column_canonical(void) {
    return wkt_column_canonical(OF(uint8_t, 0), OF(int64_t, 1), OF(uint8_t, 2), 6, OF(uint8_t, 3), OF(int64_t, 4),
                                OF(wkt_status, 5), AT(size_t, 6));
}
static wkt_status arrays(void) {
    return wkt_arrays(OF(uint8_t, 0), 6, AT(WktSizes, 1), OF(int64_t, 2), OF(size_t, 3), OF(size_t, 4));
}
static wkt_status read_events(void) {
    return wkt_read_events(OF(uint8_t, 0), 6, OF(uint64_t, 1), OF(WktUnits, 2), AT(size_t, 3), AT(size_t, 4),
                           AT(size_t, 5));
}
static wkt_status column_arrays(void) {
    return wkt_column_arrays(OF(uint8_t, 0), OF(int64_t, 1), OF(uint8_t, 2), 6, AT(WktColumnSizes, 3), OF(uint32_t, 4),
                             OF(uint32_t, 5), OF(int64_t, 6), OF(int64_t, 7), OF(size_t, 8), OF(int64_t, 9),
                             OF(size_t, 10), OF(int64_t, 11), OF(wkt_status, 12));
}
static wkt_status from_arrays(void) {
    return wkt_from_arrays(0, 0, OF(int64_t, 0), OF(size_t, 1), OF(size_t, 2), 6, OF(uint8_t, 3), AT(size_t, 4));
}
static wkt_status column_from_arrays(void) {
    return wkt_column_from_arrays(OF(uint32_t, 0), OF(uint32_t, 1), OF(int64_t, 2), OF(int64_t, 3), OF(size_t, 4),
                                  OF(int64_t, 5), OF(size_t, 6), OF(int64_t, 7), OF(uint8_t, 8), 6, OF(uint8_t, 9),
                                  OF(int64_t, 10), OF(wkt_status, 11), AT(size_t, 12));
}

static const function functions[] = {
    {canonical, "1100"},
    {same, "110"},
    {same_ends, "11000"},
    {explain, "10000"},
    {hint, "10"},
    {srid, "100"},
    {infer, "100"},
    {lines, "110"},
    {lines_some, "1100"},
    {column_canonical, "1811840"},
    {read_events, "18u000"},
    {arrays, "108ww"},
    {column_arrays, "18104488w8w84"},
    {from_arrays, "8ww10"},
    {column_from_arrays, "4488w8w811840"},
};
#define FUNCTIONS (sizeof functions / sizeof *functions)

static void reset(size_t size) {
    int i;
    memset(rooms, '#', sizeof rooms);
    for (i = 0; i < MOST; i++) {
        given[i] = rooms[i];
        sizes[i] = size;
    }
}

static int rooms_untouched(void) {
    const char *at = (const char *)rooms;
    size_t i;
    for (i = 0; i < sizeof rooms; i++)
        if (at[i] != '#') return 0;
    return 1;
}

static void test_null(const function *of, int i) {
    reset(8);
    given[i] = NULL;
    CHECK(of->call() == WKT_NULL_POINTER && rooms_untouched());
    sizes[i] = SIZE_MAX;
    CHECK(of->call() == WKT_NULL_POINTER && rooms_untouched());
    /* Of no size it may be NULL, and so not for a result. */
    reset(0);
    given[i] = NULL;
    CHECK((of->call() == WKT_NULL_POINTER) == (of->widths[i] == '0'));
}

/* One item more than PTRDIFF_MAX bytes hold, and the most that a size can be. */
static void test_long(const function *of, int i) {
    const char digit = of->widths[i];
    size_t width = digit == 'w' ? sizeof(size_t) : digit == 'u' ? 16 : (size_t)(digit - '0');
    if (!width) return;
    reset(8);
    sizes[i] = PTRDIFF_MAX / width + 1;
    CHECK(of->call() == WKT_TOO_LONG && rooms_untouched());
    sizes[i] = SIZE_MAX;
    CHECK(of->call() == WKT_TOO_LONG && rooms_untouched());
}

/* Room of as many bytes as a size may say is taken, as far as it is written to. */
static void test_most(void) {
    int64_t numbers[2];
    size_t rings[2], polygons[2];
    WktSizes found;
    CHECK(wkt_canonical(BYTES("POINT(1 2)"), 6, out, PTRDIFF_MAX, &needed, &end_at) == WKT_OK && needed == 10);
    CHECK(wkt_arrays(BYTES("POINT(1 2)"), 6, &found, numbers, PTRDIFF_MAX / 8, rings, 2, polygons, 2) == WKT_OK);
    CHECK(numbers[0] == 1000000 && numbers[1] == 2000000);
}

void test_pointers(void) {
    size_t f, i;
    for (f = 0; f < FUNCTIONS; f++) {
        const function *of = &functions[f];
        for (i = 0; i < strlen(of->widths); i++) {
            test_null(of, (int)i);
            test_long(of, (int)i);
        }
        reset(8);
        CHECK(of->call() != WKT_NULL_POINTER);
        reset(0);
        for (i = 0; i < strlen(of->widths); i++)
            if (of->widths[i] != '0') given[i] = NULL;
        CHECK(of->call() != WKT_NULL_POINTER && of->call() != WKT_TOO_LONG);
    }
    test_most();
}

#ifdef PROCESSOR
extern int processor_lacks;

/* Each function answers so on a processor that lacks something, and nothing else is looked at. */
void test_processor(void) {
    size_t f;
    CHECK(wkt_supported() == 0);
    for (f = 0; f < FUNCTIONS; f++) {
        reset(8);
        CHECK(functions[f].call() == WKT_NOT_SUPPORTED && rooms_untouched());
        memset(given, 0, sizeof given);
        CHECK(functions[f].call() == WKT_NOT_SUPPORTED);
    }
    CHECK(!strcmp(wkt_version(), WKT_VERSION));
    processor_lacks = 0;
}
#endif
