/* Calls over columns of texts, and over arrays. */
#include "calls.h"

/* Marks what a column of texts is written to, so that column_untouched finds what a call writes. */
static void before_column(void) {
    size_t i;
    memset(out, '#', ROOM);
    for (i = 0; i < ROWS; i++) ends[i] = -7, statuses[i] = 77;
    ends[ROWS] = -7;
    needed = 99;
}

/* The column of these texts, none of which is null where valid is NULL. */
static wkt_status column(const char *texts, const int64_t *offsets, const uint8_t *valid, size_t rows, size_t room) {
    before_column();
    return wkt_column_canonical(BYTES(texts), offsets, rows + 1, valid, valid ? (rows + 7) / 8 : 0, 18, out, room, ends,
                                rows + 1, statuses, rows, &needed);
}

static int column_untouched(void) {
    size_t i;
    for (i = 0; i < ROWS; i++)
        if (ends[i] != -7 || statuses[i] != 77) return 0;
    return untouched() && ends[ROWS] == -7;
}

static void columns(void) {
    const char *texts = "point(1 2.50)XPOINT(1 2)\xffPOINT EMPTYPOINT(3 4)";
    const char *answers = "POINT(1 2.5)POINT EMPTYPOINT(3 4)";
    static const int64_t offsets[8] = {0, 13, 14, 24, 25, 36, 36, 46};
    static const int64_t want[8] = {0, 12, 12, 12, 12, 23, 23, 33};
    static const wkt_status want_statuses[7] = {WKT_OK, 3, WKT_NULL, WKT_NOT_UTF8, WKT_OK, 1, WKT_OK};
    static const int64_t back[3] = {0, 14, 13}, below[2] = {-1, 13}, past[3] = {0, 13, 47}, later[2] = {36, 46};
    static const uint8_t valid[2] = {0xfb, 0};
    int64_t many[ROWS + 1], zero = 0;
    size_t i;
    CHECK(column(texts, offsets, valid, 7, ROOM) == WKT_OK && holds(answers));
    CHECK(!memcmp(ends, want, sizeof want) && !memcmp(statuses, want_statuses, sizeof want_statuses) && ends[8] == -7);
    CHECK(column(texts, offsets, NULL, 7, ROOM) == WKT_OK && statuses[2] == WKT_OK && ends[3] == 22 && needed == 43);
    CHECK(column(texts, later, NULL, 1, ROOM) == WKT_OK && holds("POINT(3 4)") && ends[0] == 0 && ends[1] == 10);
    CHECK(column(texts, offsets, valid, 7, 32) == WKT_TOO_SMALL && needed == 33 && column_untouched());
    CHECK(column(texts, offsets, valid, 7, 33) == WKT_OK && holds(answers));
    CHECK(column(texts, back, NULL, 2, ROOM) == WKT_NOT_COLUMN && column_untouched() && needed == 99);
    CHECK(column(texts, below, NULL, 1, ROOM) == WKT_NOT_COLUMN && column_untouched());
    CHECK(column(texts, past, NULL, 2, ROOM) == WKT_NOT_COLUMN && column_untouched());
    CHECK(column(texts, &zero, NULL, 0, ROOM) == WKT_OK && needed == 0 && ends[0] == 0 && untouched());
    for (i = 0; i <= ROWS; i++) many[i] = 0;
    many[ROWS] = 13;
    CHECK(column(texts, many, valid, ROWS, ROOM) == WKT_OK && statuses[8] == WKT_NULL && statuses[9] == WKT_NULL);
    CHECK(column(texts, many, NULL, ROWS, ROOM) == WKT_OK && statuses[9] == WKT_OK && holds("POINT(1 2.5)"));
    column(texts, offsets, NULL, 7, ROOM);
#define WITH(offset_count, bits, places, end_count, status_count) \
    wkt_column_canonical(BYTES(texts), many, offset_count, valid, bits, places, out, ROOM, ends, end_count, statuses, \
                         status_count, &needed)
    CHECK(WITH(ROWS + 1, 2, 18, ROWS + 1, ROWS) == WKT_OK);
    CHECK(WITH(ROWS + 1, 2, 37, ROWS + 1, ROWS) == WKT_NO_PLACES);
    CHECK(WITH(ROWS + 1, 1, 18, ROWS + 1, ROWS) == WKT_NOT_COLUMN);
    CHECK(WITH(ROWS + 1, 2, 18, ROWS, ROWS) == WKT_NOT_COLUMN);
    CHECK(WITH(ROWS + 1, 2, 18, ROWS + 1, ROWS - 1) == WKT_NOT_COLUMN);
    CHECK(WITH(0, 0, 18, 0, 0) == WKT_NOT_COLUMN);
}

/* Each row is to be one geometry as a whole. */
static void whole_rows(void) {
    static const int64_t offsets[5] = {0, 11, 23, 33, 44};
    size_t i;
    memset(out, '#', ROOM);
    CHECK(wkt_column_canonical(BYTES("POINT(1 2)\nPOINT(1 2) xPOINT(3 4)POINT(3 4  )"), offsets, 5, NULL, 0,
                               6 | WKT_WHOLE, out, ROOM, ends, 5, statuses, 4, &needed) == WKT_OK);
    CHECK(statuses[0] == WKT_OK && statuses[1] == WKT_NOT_WHOLE && statuses[2] == WKT_OK);
    CHECK(ends[1] == 10 && ends[2] == 10 && ends[3] == 20 && !memcmp(out, "POINT(1 2)POINT(3 4)", 20));
    for (i = 0; i < ROWS; i++) statuses[i] = 77;
}

static void arrays(void) {
    const char *text = "multipolygon(((0 0, 4 0, 0 4, 0 0),(1 1,2 1,1 2,1 1)),empty,((9 9,9.5 9,9 9.5,9 9))) x";
    const char *canon = "MULTIPOLYGON(((0 0,4 0,0 4,0 0),(1 1,2 1,1 2,1 1)),EMPTY,((9 9,9.5 9,9 9.5,9 9)))";
    static const int64_t want[24] = {0,  0,  40, 0,  0,  40, 0,  0,  10, 10, 20, 10,
                                     10, 20, 10, 10, 90, 90, 95, 90, 90, 95, 90, 90};
    static const size_t want_rings[4] = {0, 4, 8, 12}, want_polygons[4] = {0, 2, 2, 3};
    int64_t numbers[24], few[2] = {7, 7}, point[2] = {15, -20};
    size_t rings[4], polygons[4], one[2] = {0, 1}, three[2] = {0, 2};
    WktSizes sizes, kept;
    CHECK(wkt_arrays(BYTES(text), 1, &sizes, NULL, 0, NULL, 0, NULL, 0) == WKT_TOO_SMALL);
    CHECK(sizes.kind == 5 && sizes.dimension == 0 && sizes.end == strlen(text) - 2);
    CHECK(sizes.numbers == 24 && sizes.rings == 4 && sizes.polygons == 4);
    CHECK(wkt_arrays(BYTES(text), 1, &sizes, few, 2, rings, 4, polygons, 4) == WKT_TOO_SMALL && few[0] == 7);
    CHECK(wkt_arrays(BYTES(text), 1, &sizes, numbers, 24, rings, 4, polygons, 4) == WKT_OK);
    CHECK(!memcmp(numbers, want, sizeof want) && !memcmp(rings, want_rings, sizeof want_rings));
    CHECK(!memcmp(polygons, want_polygons, sizeof want_polygons));
    memset(out, '#', ROOM);
    CHECK(wkt_from_arrays(5, 0, numbers, 24, rings, 4, polygons, 4, 1, out, ROOM, &needed) == WKT_OK && holds(canon));
    CHECK(wkt_from_arrays(5, 0, numbers, 24, rings, 4, polygons, 4, 1, out, 9, &needed) == WKT_TOO_SMALL);
    CHECK(needed == strlen(canon));
    CHECK(wkt_from_arrays(5, 0, numbers, 24, rings, 4, polygons, 4, 37, out, ROOM, &needed) == WKT_NO_PLACES);
    CHECK(wkt_from_arrays(2, 0, numbers, 24, rings, 4, polygons, 4, 1, out, ROOM, &needed) == WKT_NOT_ARRAYS);
    CHECK(wkt_from_arrays(5, 1, numbers, 24, rings, 4, polygons, 4, 1, out, ROOM, &needed) == WKT_NOT_ARRAYS);
    CHECK(wkt_from_arrays(6, 0, numbers, 24, rings, 4, polygons, 4, 1, out, ROOM, &needed) == WKT_NOT_ARRAYS);
    CHECK(wkt_from_arrays(5, 0, numbers, 23, rings, 4, polygons, 4, 1, out, ROOM, &needed) == WKT_NOT_ARRAYS);
    rings[1] = 99;
    CHECK(wkt_from_arrays(5, 0, numbers, 24, rings, 4, polygons, 4, 1, out, ROOM, &needed) == WKT_NOT_ARRAYS);
    CHECK(wkt_from_arrays(0, 0, NULL, 0, NULL, 0, NULL, 0, 1, out, ROOM, &needed) == WKT_NOT_ARRAYS);
    memset(out, '#', ROOM);
    CHECK(wkt_from_arrays(0, 0, point, 2, one, 2, one, 2, 1, out, ROOM, &needed) == WKT_OK && holds("POINT(1.5 -2)"));
    CHECK(wkt_arrays(BYTES("GEOMETRYCOLLECTION EMPTY"), 6, &sizes, NULL, 0, NULL, 0, NULL, 0) == WKT_COLLECTION);
    CHECK(wkt_arrays(BYTES("POINT(1 9223372036854.775808)"), 6, &sizes, NULL, 0, NULL, 0, NULL, 0) == WKT_TOO_LARGE);
    CHECK(wkt_arrays(BYTES("POINT(1 9223372036854.775807)"), 6, &sizes, NULL, 0, NULL, 0, NULL, 0) == WKT_TOO_SMALL);
    memset(&sizes, 0x77, sizeof sizes);
    memcpy(&kept, &sizes, sizeof sizes);
    CHECK(wkt_arrays(BYTES("POINT(1 2)"), 37, &sizes, NULL, 0, NULL, 0, NULL, 0) == WKT_NO_PLACES);
    CHECK(wkt_arrays(BYTES("POINT(1 2"), 6, &sizes, NULL, 0, NULL, 0, NULL, 0) == 7);
    CHECK(wkt_arrays(BYTES("\xff"), 6, &sizes, NULL, 0, NULL, 0, NULL, 0) == WKT_NOT_UTF8);
    CHECK(!memcmp(&kept, &sizes, sizeof sizes));
    CHECK(wkt_arrays(BYTES("POINT(1 2)"), 6, &sizes, numbers, 24, rings, 4, polygons, 1) == WKT_TOO_SMALL);
    CHECK(sizes.polygons == 2);
    CHECK(wkt_arrays(BYTES("POINT(1 2) x"), 6 | WKT_WHOLE, &sizes, numbers, 24, rings, 4, polygons, 4) ==
          WKT_NOT_WHOLE);
    CHECK(sizes.kind == 0 && sizes.dimension == 0 && sizes.numbers == 2 && sizes.rings == 2 && sizes.polygons == 2);
    CHECK(sizes.end == 10);
    CHECK(wkt_arrays(BYTES("POLYGON Z((1 2 3,4 5 6)) x"), 6 | WKT_WHOLE, &sizes, NULL, 0, NULL, 0, NULL, 0) ==
          WKT_NOT_WHOLE);
    CHECK(sizes.kind == 2 && sizes.dimension == 1 && sizes.numbers == 6 && sizes.rings == 2 && sizes.polygons == 2);
    CHECK(sizes.end == 24);
    /* Which of two statuses is returned. */
    CHECK(wkt_arrays(BYTES("POINT(1 2"), 37 | WKT_WHOLE, &sizes, NULL, 0, NULL, 0, NULL, 0) == WKT_NO_PLACES);
    CHECK(wkt_arrays(BYTES("POINT(1 2 \xff"), 6 | WKT_WHOLE, &sizes, NULL, 0, NULL, 0, NULL, 0) == WKT_NOT_UTF8);
    CHECK(wkt_arrays(BYTES("GEOMETRYCOLLECTION EMPTY \xff"), 6 | WKT_WHOLE, &sizes, NULL, 0, NULL, 0, NULL, 0) ==
          WKT_NOT_UTF8);
    CHECK(wkt_arrays(BYTES("GEOMETRYCOLLECTION EMPTY x"), 6 | WKT_WHOLE, &sizes, NULL, 0, NULL, 0, NULL, 0) ==
          WKT_COLLECTION);
    CHECK(wkt_arrays(BYTES("POINT(1 9223372036854.775808) x"), 6 | WKT_WHOLE, &sizes, NULL, 0, NULL, 0, NULL, 0) ==
          WKT_TOO_LARGE);
    CHECK(wkt_arrays(BYTES("POINT(1 2) "), 6 | WKT_WHOLE, &sizes, numbers, 24, rings, 4, polygons, 4) == WKT_OK);
    /* Five numbers are none of two coordinates of x and y. */
    CHECK(wkt_from_arrays(1, 0, numbers, 5, three, 2, one, 2, 1, out, ROOM, &needed) == WKT_NOT_ARRAYS);
}

/* Texts with one canonical text may have other arrays; that of the canonical text has the same for all. */
static void arrays_of_keys(void) {
    static const char *const texts[] = {"POLYGON(EMPTY,(1 2))", "POLYGON(EMPTY)", "polygon empty"};
    static const size_t rings_read[] = {3, 2, 1};
    int64_t numbers[2];
    size_t rings[3], polygons[2], i;
    WktSizes sizes;
    for (i = 0; i < sizeof texts / sizeof *texts; i++) {
        CHECK(wkt_arrays(BYTES(texts[i]), 6, &sizes, numbers, 2, rings, 3, polygons, 2) == WKT_OK);
        CHECK(sizes.rings == rings_read[i] && sizes.numbers == (i == 0 ? 2 : 0));
        CHECK(wkt_canonical(BYTES(texts[i]), 6, out, ROOM, &needed, &end_at) == WKT_OK);
        CHECK(wkt_arrays(out, needed, 6, &sizes, numbers, 2, rings, 3, polygons, 2) == WKT_OK);
        CHECK(sizes.numbers == 0 && sizes.rings == 1 && sizes.polygons == 2);
        CHECK(rings[0] == 0 && polygons[0] == 0 && polygons[1] == 0);
    }
}

/* What wkt_column_arrays fills, with room for ROWS rows. */
static struct {
    WktColumnSizes sizes;
    int64_t numbers[32], number_ends[ROWS + 1], ring_ends[ROWS + 1], polygon_ends[ROWS + 1];
    size_t rings[32], polygons[32];
    uint32_t kinds[ROWS], dimensions[ROWS];
    wkt_status statuses[ROWS];
} got, before;

/* The arrays of a column, into buffers of these sizes. */
wkt_status fill_of(const char *texts, const int64_t *offsets, const uint8_t *valid, size_t rows, uint32_t places,
                   size_t numbers, size_t rings, size_t polygons, const size_t sizes[6]) {
    memset(&got, 0x77, sizeof got);
    memcpy(&before, &got, sizeof got);
    return wkt_column_arrays(BYTES(texts), offsets, rows + 1, valid, valid ? (rows + 7) / 8 : 0, places, &got.sizes,
                             got.kinds, sizes[3], got.dimensions, sizes[4], got.numbers, numbers, got.number_ends,
                             sizes[0], got.rings, rings, got.ring_ends, sizes[1], got.polygons, polygons,
                             got.polygon_ends, sizes[2], got.statuses, sizes[5]);
}

int arrays_untouched(void) {
    before.sizes = got.sizes;
    return !memcmp(&got, &before, sizeof got);
}

/* So are the sizes. */
static int sizes_untouched(void) {
    return got.sizes.numbers == got.sizes.rings && got.sizes.rings == (size_t)0x7777777777777777;
}

/* Each row by itself has the same arrays. */
static int each_alone(const char *texts, const int64_t *offsets, size_t rows, uint32_t places) {
    size_t i;
    for (i = 0; i < rows; i++) {
        int64_t numbers[32];
        size_t rings[32], polygons[32];
        WktSizes one;
        size_t ns = got.number_ends[i + 1] - got.number_ends[i], rs = got.ring_ends[i + 1] - got.ring_ends[i],
               ps = got.polygon_ends[i + 1] - got.polygon_ends[i];
        wkt_status status = wkt_arrays((const uint8_t *)texts + offsets[i], offsets[i + 1] - offsets[i], places, &one,
                                       numbers, 32, rings, 32, polygons, 32);
        if (got.statuses[i] == WKT_NULL || status) {
            if (ns || rs || ps || got.kinds[i] || got.dimensions[i]) return 0;
            if (got.statuses[i] != WKT_NULL && got.statuses[i] != status) return 0;
            continue;
        }
        if (got.statuses[i] || one.kind != got.kinds[i] || one.dimension != got.dimensions[i]) return 0;
        if (one.numbers != ns || one.rings != rs || one.polygons != ps) return 0;
        if (memcmp(numbers, got.numbers + got.number_ends[i], ns * sizeof *numbers)) return 0;
        if (memcmp(rings, got.rings + got.ring_ends[i], rs * sizeof *rings)) return 0;
        if (memcmp(polygons, got.polygons + got.polygon_ends[i], ps * sizeof *polygons)) return 0;
    }
    return 1;
}

static void column_arrays(void) {
    const char *texts = "point(1 2.50)XPOINT(1 2)\xffLINESTRING Z(1 2 3,4 5 6)GEOMETRYCOLLECTION EMPTYPOINT(1 1e)"
                        "POINT(1 9223372036854775808)MULTIPOLYGON(((0 0,4 0,0 4,0 0)),EMPTY)";
    static const int64_t offsets[10] = {0, 13, 14, 24, 25, 50, 74, 85, 113, 152};
    static const int64_t number_ends[10] = {0, 2, 2, 2, 2, 8, 8, 8, 8, 16};
    static const int64_t ring_ends[10] = {0, 2, 2, 2, 2, 4, 4, 4, 4, 6}, back[3] = {0, 14, 13}, whole[3] = {0, 14, 24};
    static const int64_t polygon_ends[10] = {0, 2, 2, 2, 2, 4, 4, 4, 4, 7};
    static const int64_t numbers[16] = {10, 25, 10, 20, 30, 40, 50, 60, 0, 0, 40, 0, 0, 40, 0, 0};
    static const size_t rings[6] = {0, 1, 0, 2, 0, 4}, polygons[7] = {0, 1, 0, 1, 0, 1, 1};
    static const uint32_t kinds[9] = {0, 0, 0, 0, 1, 0, 0, 0, 5}, dimensions[9] = {0, 0, 0, 0, 1, 0, 0, 0, 0};
    static const wkt_status want_statuses[9] = {
        WKT_OK, 3, WKT_NULL, WKT_NOT_UTF8, WKT_OK, WKT_COLLECTION, WKT_BAD_NUMBER, WKT_TOO_LARGE, WKT_OK};
    static const uint8_t valid[2] = {0xfb, 1};
    static const int64_t zero = 0;
    size_t fit[6] = {10, 10, 10, 9, 9, 9}, none[6] = {1, 1, 1, 0, 0, 0}, i;
    CHECK(fill_of(texts, offsets, valid, 9, 1, 32, 32, 32, fit) == WKT_OK);
    CHECK(got.sizes.numbers == 16 && got.sizes.rings == 6 && got.sizes.polygons == 7);
    CHECK(!memcmp(got.numbers, numbers, sizeof numbers) && got.numbers[16] == before.numbers[16]);
    CHECK(!memcmp(got.rings, rings, sizeof rings) && got.rings[6] == before.rings[6]);
    CHECK(!memcmp(got.polygons, polygons, sizeof polygons) && got.polygons[7] == before.polygons[7]);
    CHECK(!memcmp(got.number_ends, number_ends, sizeof number_ends));
    CHECK(!memcmp(got.ring_ends, ring_ends, sizeof ring_ends));
    CHECK(!memcmp(got.polygon_ends, polygon_ends, sizeof polygon_ends));
    CHECK(!memcmp(got.kinds, kinds, sizeof kinds) && !memcmp(got.dimensions, dimensions, sizeof dimensions));
    CHECK(!memcmp(got.statuses, want_statuses, sizeof want_statuses) && each_alone(texts, offsets, 9, 1));
    CHECK(fill_of(texts, offsets, NULL, 9, 1, 18, 8, 9, fit) == WKT_OK && got.statuses[2] == WKT_OK);
    CHECK(got.sizes.numbers == 18 && each_alone(texts, offsets, 9, 1));
    CHECK(fill_of(texts, offsets, valid, 9, 1, 15, 6, 7, fit) == WKT_TOO_SMALL && arrays_untouched());
    CHECK(got.sizes.numbers == 16 && got.sizes.rings == 6 && got.sizes.polygons == 7);
    CHECK(fill_of(texts, offsets, valid, 9, 1, 16, 5, 7, fit) == WKT_TOO_SMALL && arrays_untouched());
    CHECK(fill_of(texts, offsets, valid, 9, 1, 16, 6, 6, fit) == WKT_TOO_SMALL && arrays_untouched());
    CHECK(fill_of(texts, offsets, valid, 9, 1, 16, 6, 7, fit) == WKT_OK);
    CHECK(fill_of(texts, offsets, valid, 9, 37, 32, 32, 32, fit) == WKT_NO_PLACES && sizes_untouched() &&
          arrays_untouched());
    CHECK(fill_of(texts, &zero, NULL, 0, 1, 0, 0, 0, none) == WKT_OK);
    CHECK(got.sizes.numbers == 0 && got.number_ends[0] == 0);
    for (i = 0; i < 6; i++) {
        fit[i]--;
        CHECK(fill_of(texts, offsets, valid, 9, 1, 32, 32, 32, fit) == WKT_NOT_COLUMN && arrays_untouched());
        fit[i] += 2;
        CHECK(fill_of(texts, offsets, valid, 9, 1, 32, 32, 32, fit) == WKT_NOT_COLUMN && arrays_untouched());
        fit[i]--;
    }
    fit[0] = fit[1] = fit[2] = 3;
    fit[3] = fit[4] = fit[5] = 2;
    CHECK(fill_of(texts, back, NULL, 2, 1, 32, 32, 32, fit) == WKT_NOT_COLUMN && sizes_untouched() &&
          arrays_untouched());
    CHECK(fill_of(texts, whole, NULL, 2, 1 | WKT_WHOLE, 32, 32, 32, fit) == WKT_OK && got.statuses[0] == WKT_NOT_WHOLE);
    CHECK(got.statuses[1] == WKT_OK && got.number_ends[1] == 0 && got.number_ends[2] == 2);
}

/* The texts of the first rows of the arrays that wkt_column_arrays gave, with the bits of those that had any. */
static wkt_status texts_of(size_t rows, const uint8_t *valid, uint32_t places, size_t room) {
    before_column();
    return wkt_column_from_arrays(got.kinds, rows, got.dimensions, rows, got.numbers, 32, got.number_ends, rows + 1,
                                  got.rings, 32, got.ring_ends, rows + 1, got.polygons, 32, got.polygon_ends, rows + 1,
                                  valid, valid ? (rows + 7) / 8 : 0, places, out, room, ends, rows + 1, statuses, rows,
                                  &needed);
}

/* Which numbers have arrays: those of units of 64 bits. */
static const struct {
    const char *text;
    uint32_t places;
    int64_t first;
    wkt_status status;
} units[] = {{"POINT(9.223372036854775807 0)", 18, INT64_MAX, WKT_OK},
             {"POINT(-9.223372036854775808 0)", 18, INT64_MIN, WKT_OK},
             {"POINT(9.223372036854775808 0)", 18, 0, WKT_TOO_LARGE},
             {"POINT(0.9223372036854775807 0)", 19, INT64_MAX, WKT_OK},
             {"POINT(0.9223372036854775808 0)", 19, 0, WKT_TOO_LARGE},
             {"POINT(1 0)", 19, 0, WKT_TOO_LARGE},
             {"POINT(-0.000000000000000000000017 0)", 24, -17, WKT_OK},
             {"POINT(-0.000009223372036854775808 0)", 24, INT64_MIN, WKT_OK},
             {"POINT(-0.000009223372036854775809 0)", 24, 0, WKT_TOO_LARGE},
             {"POINT(-0.000000000000000000000000000000000001 0)", 36, -1, WKT_OK},
             {"POINT(0.000000000000000009223372036854775807 0)", 36, INT64_MAX, WKT_OK},
             {"POINT(0.000000000000000009223372036854775808 0)", 36, 0, WKT_TOO_LARGE},
             {"POINT(170.141183460469231731687303715884105727 0)", 36, 0, WKT_TOO_LARGE},
             {"POINT(0 171)", 36, 0, WKT_BAD_NUMBER}};

static void arrays_of_units(void) {
    size_t i;
    for (i = 0; i < sizeof units / sizeof *units; i++) {
        int64_t numbers[2] = {7, 7}, offsets[2] = {0, 0};
        size_t rings[2], polygons[2];
        static const size_t fit[6] = {2, 2, 2, 1, 1, 1};
        WktSizes sizes;
        offsets[1] = (int64_t)strlen(units[i].text);
        CHECK(wkt_arrays(BYTES(units[i].text), units[i].places, &sizes, numbers, 2, rings, 2, polygons, 2) ==
              units[i].status);
        CHECK(fill_of(units[i].text, offsets, NULL, 1, units[i].places, 2, 2, 2, fit) == WKT_OK);
        CHECK(got.statuses[0] == units[i].status && got.number_ends[1] == (units[i].status ? 0 : 2));
        if (units[i].status) {
            CHECK(numbers[0] == 7);
            continue;
        }
        CHECK(numbers[0] == units[i].first && got.numbers[0] == units[i].first && numbers[1] == 0);
        memset(out, '#', ROOM);
        CHECK(wkt_from_arrays(0, 0, numbers, 2, rings, 2, polygons, 2, units[i].places, out, ROOM, &needed) == WKT_OK);
        CHECK(holds(units[i].text));
        CHECK(texts_of(1, NULL, units[i].places, ROOM) == WKT_OK && statuses[0] == WKT_OK && holds(units[i].text));
    }
}

static void column_texts(void) {
    const char *texts = "point(1 2.50)XLINESTRING Z(1 2 3,4 5 6)MULTIPOLYGON(((0 0,4 0,0 4,0 0)),EMPTY)POINT EMPTY";
    const char *answers = "POINT(1 2.5)LINESTRING Z(1 2 3,4 5 6)MULTIPOLYGON(((0 0,4 0,0 4,0 0)),EMPTY)POINT EMPTY";
    static const int64_t offsets[6] = {0, 13, 14, 39, 78, 89}, want[6] = {0, 12, 12, 37, 76, 87};
    static const wkt_status want_statuses[5] = {WKT_OK, WKT_NULL, WKT_OK, WKT_OK, WKT_OK};
    static const size_t fit[6] = {6, 6, 6, 5, 5, 5};
    static const uint8_t valid = 0x1d;
    CHECK(fill_of(texts, offsets, NULL, 5, 1, 32, 32, 32, fit) == WKT_OK && got.statuses[1] == 3);
    CHECK(texts_of(5, &valid, 1, ROOM) == WKT_OK && holds(answers));
    CHECK(!memcmp(ends, want, sizeof want) && !memcmp(statuses, want_statuses, sizeof want_statuses) && ends[6] == -7);
    CHECK(texts_of(5, NULL, 1, ROOM) == WKT_OK && holds(answers) && statuses[1] == WKT_NOT_ARRAYS);
    CHECK(texts_of(5, &valid, 1, 86) == WKT_TOO_SMALL && needed == 87 && column_untouched());
    CHECK(texts_of(5, &valid, 1, 87) == WKT_OK && holds(answers));
    CHECK(texts_of(5, &valid, 37, ROOM) == WKT_NO_PLACES && column_untouched());
    CHECK(texts_of(0, NULL, 1, ROOM) == WKT_OK && needed == 0 && ends[0] == 0 && untouched());
    got.kinds[2] = 2;
    got.rings[2]++;
    CHECK(texts_of(5, &valid, 1, ROOM) == WKT_OK && statuses[2] == WKT_NOT_ARRAYS && ends[2] == ends[3]);
    got.ring_ends[5] = 33;
    CHECK(texts_of(5, &valid, 1, ROOM) == WKT_NOT_COLUMN && column_untouched());
    got.ring_ends[5] = got.ring_ends[4] - 1;
    CHECK(texts_of(5, &valid, 1, ROOM) == WKT_NOT_COLUMN && column_untouched());
    CHECK(texts_of(4, &valid, 1, ROOM) == WKT_OK);
    got.polygon_ends[0] = -1;
    CHECK(texts_of(4, &valid, 1, ROOM) == WKT_NOT_COLUMN && column_untouched());
}

/* Each size in turn is one too small or too large. */
static void column_text_sizes(void) {
    static const int64_t offsets[3] = {0, 10, 20};
    static const size_t fit[6] = {3, 3, 3, 2, 2, 2};
    size_t n[8] = {2, 2, 3, 3, 3, 1, 3, 2}, i, step;
    static const uint8_t valid = 3;
    CHECK(fill_of("POINT(1 2)POINT(3 4)", offsets, NULL, 2, 1, 32, 32, 32, fit) == WKT_OK);
#define SIZED \
    wkt_column_from_arrays(got.kinds, n[0], got.dimensions, n[1], got.numbers, 32, got.number_ends, n[2], got.rings, \
                           32, got.ring_ends, n[3], got.polygons, 32, got.polygon_ends, n[4], &valid, n[5], 1, out, \
                           ROOM, ends, n[6], statuses, n[7], &needed)
    CHECK(SIZED == WKT_OK && statuses[1] == WKT_OK);
    for (i = 0; i < 8; i++)
        for (step = 0; step < 2; step++) {
            if (i == 5) continue;
            n[i] += step ? 1 : -1;
            CHECK(SIZED == WKT_NOT_COLUMN);
            n[i] -= step ? 1 : -1;
        }
    n[5] = 0;
    CHECK(SIZED == WKT_OK);
    CHECK(wkt_column_from_arrays(NULL, 0, NULL, 0, NULL, 0, NULL, 0, NULL, 0, NULL, 0, NULL, 0, NULL, 0, NULL, 0, 1,
                                 NULL, 0, NULL, 0, NULL, 0, &needed) == WKT_NOT_COLUMN);
}

/* Offsets that go to and fro over one long ring are refused before anything is made of them: a room is taken, and not written. */
static void to_and_fro(void) {
    enum { MANY = 100000 };
    int64_t *numbers = (int64_t *)calloc(2 * MANY, sizeof *numbers);
    size_t *rings = (size_t *)calloc(MANY, sizeof *rings), polygons[2] = {0, MANY - 1}, i;
    CHECK(numbers && rings);
    for (i = 1; i < MANY; i += 2) rings[i] = MANY;
    allocations = 0;
    CHECK(wkt_from_arrays(4, 0, numbers, 2 * MANY, rings, MANY, polygons, 2, 6, out, ROOM, &needed) == WKT_NOT_ARRAYS);
    CHECK(PORTABLE || allocations == 1);
    free(numbers);
    free(rings);
}

void test_columns(void) {
    columns();
    whole_rows();
    arrays();
    arrays_of_keys();
    column_arrays();
    column_texts();
    arrays_of_units();
    column_text_sizes();
    to_and_fro();
}
