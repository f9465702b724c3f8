/* Calls with dialects. Where a text is refused, message and what could come next are those of the text that it is read as. */
#include "calls.h"

#define ALL (WKT_EWKT | WKT_EXPONENTS | WKT_NAN)

/* A text, what is asked for, and its canonical text and the status; where the geometry ends. */
static const struct {
    const char *text;
    uint32_t asked;
    const char *canonical;
    wkt_status status;
    size_t end;
} texts[] = {
    {"SRID=4326;POINT(1 2.0) x", WKT_SRID, "POINT(1 2)", WKT_OK, 22},
    {"SRID=4326;POINT(1 2.0) x", ALL | WKT_WHOLE, "", WKT_NOT_WHOLE, 22},
    {"SRID=4326;POINT(1 2.0)\n", ALL | WKT_WHOLE, "POINT(1 2)", WKT_OK, 22},
    {"SRID=4326;POINT(1 2)", WKT_UNTAGGED | WKT_EXPONENTS | WKT_NAN, "", 3, 99},
    {"SRID=4326;POINT(1 2)", 0, "", 3, 99},
    {"POINT(1 2 3)", WKT_UNTAGGED, "POINT Z(1 2 3)", WKT_OK, 12},
    {"POINT(1 2 3)", WKT_SRID | WKT_EXPONENTS | WKT_NAN, "", 7, 99},
    {" srid=1; point ( 1 2 3 4 ) ,", WKT_EWKT, "POINT ZM(1 2 3 4)", WKT_OK, 26},
    {" srid=1; point ( 1 2 3 4 ) ,", ALL | WKT_WHOLE, "", WKT_NOT_WHOLE, 26},
    {" srid=1; point ( 1 2 3 4 )  ", ALL | WKT_WHOLE, "POINT ZM(1 2 3 4)", WKT_OK, 26},
    {"POINT(1e3 2E-3)", WKT_EXPONENTS, "POINT(1000 0.002)", WKT_OK, 15},
    {"POINT(1e3 2E-3)", WKT_EWKT | WKT_NAN, "", 13, 99},
    {"POINT(1e-19 2)", WKT_EXPONENTS, "", 7, 99},
    {"POINT(nan nan)", WKT_NAN, "POINT EMPTY", WKT_OK, 14},
    {"POINT(nan nan)", WKT_EWKT | WKT_EXPONENTS, "", 7, 99},
    {"POINT(nan nan nan)", WKT_NAN | WKT_UNTAGGED, "POINT Z EMPTY", WKT_OK, 18},
    {"POINT(1 2)", ALL, "POINT(1 2)", WKT_OK, 10},
    {"POINT Z(1 2 3)", ALL, "POINT Z(1 2 3)", WKT_OK, 14},
    {"POINT(1 2 3 4 5)", ALL, "", 7, 99},
    {"POINT(1 2 3)\xff", WKT_UNTAGGED, "", WKT_NOT_UTF8, 99},
    {"POINT(1 2)", 8192, "", WKT_NO_PLACES, 99},
    {"POINT(1 2)", ALL | 37, "", WKT_NO_PLACES, 99},
};

static void canonical(void) {
    size_t i;
    for (i = 0; i < sizeof texts / sizeof *texts; i++) {
        const char *text = texts[i].text;
        uint32_t places = (texts[i].asked & 255u) ? texts[i].asked : texts[i].asked + 18;
        memset(out, '#', ROOM);
        needed = end_at = 99;
        CHECK(wkt_canonical(BYTES(text), places, out, ROOM, &needed, &end_at) == texts[i].status);
        CHECK(end_at == texts[i].end);
        CHECK(texts[i].status == WKT_OK ? holds(texts[i].canonical) : untouched() && needed == 99);
        memset(out, '#', ROOM);
        if (texts[i].status == WKT_OK)
            CHECK(wkt_canonical(BYTES(text), places, out, 3, &needed, &end_at) == WKT_TOO_SMALL && untouched() &&
                  needed == strlen(texts[i].canonical) && end_at == texts[i].end);
    }
    /* A text may end at a 0 byte: of a whole one, nothing may follow it. */
    CHECK(wkt_canonical((const uint8_t *)"POINT(1 2 3)", 13, WKT_WHOLE | WKT_UNTAGGED | 18, out, ROOM, &needed,
                        &end_at) == WKT_NOT_WHOLE &&
          end_at == 12);
}

static void places(void) {
    static const struct {
        const char *text;
        uint32_t asked;
        wkt_status status;
        uint32_t message;
        size_t start, stop;
        uint32_t expected;
    } refused[] = {
        {"SRID=1; POINT(1 2 3 4 5)", ALL, WKT_OK, 7, 18, 19, WKT_EXPECTED_CLOSING},
        {"SRID=1; POINT(1 2 3 4", ALL, WKT_OK, 7, 21, 21, WKT_EXPECTED_CLOSING},
        {"POINT( nan nan 3)", ALL, WKT_OK, 7, 7, 10, WKT_EXPECTED_X},
        {"MULTIPOINT(nan nan, 1e-19 2)", ALL, WKT_OK, 7, 20, 25, WKT_EXPECTED_POINT},
        {"SRID=1;SRID=1;POINT(1 2)", ALL, WKT_OK, 3, 7, 19, WKT_EXPECTED_KIND},
        {"SRID=1;POINT(1 2)  ;", ALL | WKT_WHOLE, WKT_NOT_WHOLE, 99, 19, 20, 99},
        {"SRID=1;POINT(1 2 3)  x y", ALL | WKT_WHOLE, WKT_NOT_WHOLE, 99, 21, 24, 99},
        {"SRID=1;POINT(1 2 3)  x y", ALL, WKT_ACCEPTED, 99, 99, 99, 99},
    };
    size_t i;
    uint32_t hint = 99;
    for (i = 0; i < sizeof refused / sizeof *refused; i++) {
        uint32_t message = 99, expected = 99;
        size_t start = 99, stop = 99;
        CHECK(wkt_explain(BYTES(refused[i].text), refused[i].asked + 18, &message, &start, &stop, &expected) ==
              refused[i].status);
        CHECK(message == refused[i].message && start == refused[i].start && stop == refused[i].stop &&
              expected == refused[i].expected);
    }
    CHECK(wkt_hint(BYTES("SRID=1;POINT(1e-19 2)"), ALL + 18, &hint) == WKT_OK && hint == WKT_HINT_PLACES);
}

static void others(void) {
    int64_t numbers[6];
    size_t rings[2], polygons[2];
    WktSizes sizes;
    uint32_t same = 9, srid = 9;
    size_t other_end;
    const char *text = "SRID=1;LINESTRING(1 2 3,4e1 5 6) ";
    CHECK(wkt_arrays(BYTES(text), ALL | WKT_WHOLE, &sizes, numbers, 6, rings, 2, polygons, 2) == WKT_OK);
    CHECK(sizes.kind == 1 && sizes.dimension == WKT_XYZ && sizes.end == 32 && numbers[3] == 40 && numbers[5] == 6);
    CHECK(sizes.numbers == 6 && rings[0] == 0 && rings[1] == 2 && polygons[0] == 0 && polygons[1] == 1);
    CHECK(wkt_same_ends(BYTES("SRID=1;POINT(1 2 3) "), BYTES("POINT Z(1e0 2 0.3e1)"), ALL, &same, &end_at,
                        &other_end) == WKT_OK &&
          same == 1 && end_at == 19 && other_end == 20);
    CHECK(wkt_same_ends(BYTES("SRID=1;POINT(1 2 3) "), BYTES("POINT(1 2)"), ALL, &same, &end_at, &other_end) ==
              WKT_OK &&
          same == 0 && end_at == 19 && other_end == 10);
    CHECK(wkt_same_ends(BYTES("SRID=1;POINT(1 2 3) "), BYTES("POINT(1 2 3)x"), ALL | WKT_WHOLE, &same, &end_at,
                        &other_end) == WKT_NOT_WHOLE &&
          same == 0 && end_at == 19 && other_end == 12);
    CHECK(wkt_same(BYTES("SRID=1;POINT(1 2)"), BYTES("SRID=2;POINT(1 2)"), ALL, &same) == WKT_OK && same == 1);
    CHECK(wkt_same(BYTES("SRID=1;POINT(1 2)"), BYTES("POINT(1"), ALL, &same) == 7);
    CHECK(wkt_srid(BYTES("SRID=4326;POINT(1 2)"), &srid, &end_at) == WKT_OK && srid == 4326 && end_at == 10);
    CHECK(wkt_srid(BYTES(" sRid=000000001;"), &srid, &end_at) == WKT_OK && srid == 1 && end_at == 16);
    CHECK(wkt_srid(BYTES("SRID=1"), &srid, &end_at) == WKT_OK && srid == 0 && end_at == 0);
    CHECK(wkt_srid(NULL, 0, &srid, &end_at) == WKT_OK && srid == 0 && end_at == 0);
    /* Lines and columns take none. */
    CHECK(wkt_lines(BYTES("POINT(1 2)"), ALL, out, ROOM, &needed) == WKT_NO_PLACES);
}

/* Long texts, and of all texts those that become longest. */
static void long_texts(void) {
    enum { POINTS = 300 };
    static char text[POINTS * 12 + 64], wanted[POINTS * 83 + 64], zeros[40];
    static uint8_t long_out[sizeof wanted];
    static int64_t numbers[2 * POINTS];
    size_t at = 0, length = 0, rings[2], polygons[2], start = 99, stop = 99, i;
    uint32_t message = 99, expected = 99, same = 9;
    WktSizes sizes;
    memset(zeros, '0', 38);
    at += (size_t)sprintf(text, "SRID=1;LINESTRING(");
    length += (size_t)sprintf(wanted, "LINESTRING(");
    for (i = 0; i < POINTS; i++) {
        at += (size_t)sprintf(text + at, "1e38 -1e38%c", i + 1 < POINTS ? ',' : ')');
        length += (size_t)sprintf(wanted + length, "1%s -1%s%c", zeros, zeros, i + 1 < POINTS ? ',' : ')');
    }
    CHECK(wkt_canonical((const uint8_t *)text, at, ALL, long_out, sizeof long_out, &needed, &end_at) == WKT_OK);
    CHECK(needed == length && end_at == at && !memcmp(long_out, wanted, length));
    CHECK(wkt_same((const uint8_t *)text, at, (const uint8_t *)wanted, length, ALL, &same) == WKT_OK && same == 1);
    /* A number that no places hold is written with forty zeros. */
    for (i = 0, at = (size_t)sprintf(text, "POINT("); i < POINTS; i++) at += (size_t)sprintf(text + at, "1e99,");
    CHECK(wkt_explain((const uint8_t *)text, at, ALL, &message, &start, &stop, &expected) == WKT_OK);
    CHECK(message == 7 && start == 6 && stop == 10 && expected == WKT_EXPECTED_X);
    for (i = 0, at = (size_t)sprintf(text, "LINESTRING("); i < POINTS; i++)
        at += (size_t)sprintf(text + at, "1e18 2e0%c", i + 1 < POINTS ? ',' : ')');
    CHECK(wkt_arrays((const uint8_t *)text, at, ALL, &sizes, numbers, 2 * POINTS, rings, 2, polygons, 2) == WKT_OK);
    CHECK(sizes.numbers == 2 * POINTS && sizes.end == at && rings[1] == POINTS &&
          numbers[2 * POINTS - 2] == 1000000000000000000 && numbers[2 * POINTS - 1] == 2);
}

void test_dialects(void) {
    canonical();
    places();
    others();
    long_texts();
}
