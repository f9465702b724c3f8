/* Where a text is refused, and why: wkt_explain with WKT_WHOLE, wkt_hint, and the words of a status. */
#include "calls.h"

/* A text, the number of places, and the hint. For each hint texts that have it and texts that nearly have it; the words of
 * docs/names.tsv say what each hint is. */
static const struct {
    const char *text;
    uint32_t places, hint;
} hints[] = {
    {"\xef\xbb\xbfPOINT(1 2)", 6, WKT_HINT_BYTE_ORDER_MARK},
    {"\xef\xbb\xbf", 6, WKT_HINT_BYTE_ORDER_MARK},
    {"\xef\xbb\xbePOINT(1 2)", 6, WKT_HINT_NONE},
    {"POINT(\xef\xbb\xbf"
     "1 2)",
     6, WKT_HINT_NONE},
    {"0101000000000000000000F03F0000000000000040", 6, WKT_HINT_HEXADECIMAL},
    {"00000000013ff00000000000004000000000000000", 6, WKT_HINT_HEXADECIMAL},
    {"0101000000", 6, WKT_HINT_HEXADECIMAL},
    {"010100000", 6, WKT_HINT_NO_KIND},
    {"0201000000000000000000F03F0000000000000040", 6, WKT_HINT_NO_KIND},
    {"0101000000000000000000G03F0000000000000040", 6, WKT_HINT_NO_KIND},
    {"SRID=4326;POINT(1 2)", 6, WKT_HINT_SRID},
    {"srid=0; POINT(1 2)", 6, WKT_HINT_SRID},
    {"SRID4326;POINT(1 2)", 6, WKT_HINT_NONE},
    {"SRID =4326;POINT(1 2)", 6, WKT_HINT_NONE},
    {"CURVEPOLYGON((0 0,1 1,1 0,0 0))", 6, WKT_HINT_CURVE},
    {"circularstring z (0 0 0,1 1 1)", 6, WKT_HINT_CURVE},
    {"GEOMETRYCOLLECTION(COMPOUNDCURVE((0 0,1 1)))", 6, WKT_HINT_CURVE},
    {"MULTICURVE((0 0,1 1))", 6, WKT_HINT_CURVE},
    {"MultiSurface(((0 0,1 1,1 0,0 0)))", 6, WKT_HINT_CURVE},
    {"CURVE(0 0,1 1)", 6, WKT_HINT_NONE},
    {"CIRCULAR STRING(0 0,1 1)", 6, WKT_HINT_NONE},
    {"TIN(((0 0,1 1,1 0,0 0)))", 6, WKT_HINT_SURFACE},
    {"GEOMETRYCOLLECTION(TRIANGLE((0 0,1 1,1 0,0 0)))", 6, WKT_HINT_SURFACE},
    {"polyhedralsurface(((0 0,1 1,1 0,0 0)))", 6, WKT_HINT_SURFACE},
    {"SURFACE((0 0,1 1,1 0,0 0))", 6, WKT_HINT_NONE},
    {"TI(((0 0,1 1,1 0,0 0)))", 6, WKT_HINT_NONE},
    {"POINT(1e-7 2)", 18, WKT_HINT_EXPONENT},
    {"POINT(1 -2.5E3)", 6, WKT_HINT_EXPONENT},
    {"POINT(e7 2)", 6, WKT_HINT_NONE},
    {"POINT(1_7 2)", 6, WKT_HINT_NONE},
    {"POINT(nan nan)", 6, WKT_HINT_NO_NUMBER},
    {"MULTIPOINT(1 2,-Inf 3)", 6, WKT_HINT_NO_NUMBER},
    {"POINT(1 1.#QNAN)", 6, WKT_HINT_NO_NUMBER},
    {"POINT(na 2)", 6, WKT_HINT_NONE},
    {"POINT(1.QNAN 2)", 6, WKT_HINT_NONE},
    {"POINT(0.1234567 2)", 6, WKT_HINT_PLACES},
    {"POINT Z(1 2 -3.5)", 0, WKT_HINT_PLACES},
    {"POINT(0.1234567890123456789 2)", 18, WKT_HINT_PLACES},
    {"POINT(0.12.3456 2)", 3, WKT_HINT_NONE},
    {"POINT(1 1000000000000000000000000000000000000000)", 18, WKT_HINT_LARGE},
    {"POINT(-170141183460469231731687303715884105729 0)", 0, WKT_HINT_LARGE},
    {"POINT(1700000000000000000000a 0)", 0, WKT_HINT_NONE},
    {"POINT(1 2 3)", 6, WKT_HINT_DIMENSION},
    {"LINESTRING(1 2 3,4 5 6)", 6, WKT_HINT_DIMENSION},
    {"POINT M(1 2 3 4)", 6, WKT_HINT_DIMENSION},
    {"POINT(1 2 x)", 6, WKT_HINT_NONE},
    {"POINT Z(1 2)", 6, WKT_HINT_NONE},
    {"POINT()", 6, WKT_HINT_EMPTY},
    {"POLYGON(())", 6, WKT_HINT_EMPTY},
    {"GEOMETRYCOLLECTION()", 6, WKT_HINT_EMPTY},
    {"MULTIPOINT(1 2,())", 6, WKT_HINT_EMPTY},
    {"multipolygon z ()", 6, WKT_HINT_EMPTY},
    {"POINT( )", 6, WKT_HINT_NONE},
    {"()", 6, WKT_HINT_NO_KIND},
    {")", 6, WKT_HINT_NONE},
    {"MULTIPOINT(1 2,)", 6, WKT_HINT_NONE},
    {"POINT(", 6, WKT_HINT_NONE},
    {"POINT(1)", 6, WKT_HINT_NONE},
    {"", 6, WKT_HINT_NONE},
    {"POINT(180 90)", 36, WKT_HINT_FEWER},
    {"POINT(0.000000000000000001 -1700.5)", 36, WKT_HINT_FEWER},
    {"POINT(1701.4118346046923173168730371588410573 0)", 35, WKT_HINT_LARGE},
    {"POINT(1.0000000000000000001 1800)", 36, WKT_HINT_FEWER},
    {"POINT(180.0000000000000000001 0)", 36, WKT_HINT_LARGE},
    {"POINT(100000000000000000000 0)", 36, WKT_HINT_LARGE},
    {"POINT(170141183460469231732 0)", 18, WKT_HINT_LARGE},
    {"POINT(1,5 2,5)", 6, WKT_HINT_COMMA},
    {"POINT(1,2)", 6, WKT_HINT_COMMA},
    {"POINT(52.5, 13.4)", 6, WKT_HINT_COMMA},
    {"POINT(13 52,5)", 6, WKT_HINT_COMMA},
    {"POINT(1 2,3 4)", 6, WKT_HINT_COMMA},
    {"MULTIPOINT((1,5 2,5))", 6, WKT_HINT_COMMA},
    {"POLYGON((0,0,1,0,0,1,0,0))", 6, WKT_HINT_COMMA},
    {"LINESTRING Z(1 2,3 4)", 6, WKT_HINT_NONE},
    {"LINESTRING(1 2,,3 4)", 6, WKT_HINT_NONE},
    {"POINT,(1 2)", 6, WKT_HINT_NONE},
    {"NULL", 6, WKT_HINT_MISSING},
    {" null\n", 6, WKT_HINT_MISSING},
    {"None", 6, WKT_HINT_MISSING},
    {"nan", 6, WKT_HINT_MISSING},
    {"POINT(None None)", 6, WKT_HINT_MISSING},
    {"POINT Z(1 2 NULL)", 6, WKT_HINT_MISSING},
    {"GEOMETRYCOLLECTION(NULL)", 6, WKT_HINT_MISSING},
    {"NULLS", 6, WKT_HINT_NONE},
    {"Nancy", 6, WKT_HINT_NONE},
    {"POINT NULL", 6, WKT_HINT_NONE},
    {"\"POINT(1 2)\"", 6, WKT_HINT_QUOTES},
    {"'POINT(1 2)'", 6, WKT_HINT_QUOTES},
    {"\"SRID=4326;POINT(1 2)\"", 6, WKT_HINT_QUOTES},
    {"POINT('1' '2')", 6, WKT_HINT_QUOTES},
    {"POINT(1' 2)", 6, WKT_HINT_NONE},
    {"POINT(1\xc2\xa0"
     "2)",
     6, WKT_HINT_NO_BREAK_SPACE},
    {"POINT\xc2\xa0(1 2)", 6, WKT_HINT_NO_BREAK_SPACE},
    {"\xc2\xa0POINT(1 2)", 6, WKT_HINT_NO_BREAK_SPACE},
    {"POINT Z\xc2\xa0(1 2 3)", 6, WKT_HINT_NO_BREAK_SPACE},
    {"POINT(1 2\xc2\xa0)", 6, WKT_HINT_NO_BREAK_SPACE},
    {"LINESTRING(1 2,\xc2\xa0"
     "3 4)",
     6, WKT_HINT_NO_BREAK_SPACE},
    {"POINT\xc2\xa1(1 2)", 6, WKT_HINT_NONE},
    {"POINT(\xe2\x88\x92"
     "71.06 42.28)",
     6, WKT_HINT_MINUS},
    {"POINT(10 \xe2\x80\x93"
     "20)",
     6, WKT_HINT_MINUS},
    {"POINT(10 \xe2\x80\x94"
     "20)",
     6, WKT_HINT_NONE},
    {"BOX(0 0,1 1)", 6, WKT_HINT_BOX},
    {"BOX3D(0 0 0,1 1 1)", 6, WKT_HINT_BOX},
    {"ENVELOPE(-10, 20, 15, 10)", 6, WKT_HINT_BOX},
    {"BO(0 0,1 1)", 6, WKT_HINT_NONE},
    {"{\"type\":\"Point\",\"coordinates\":[1,2]}", 6, WKT_HINT_BRACES},
    {"{\n  \"type\": \"Point\"}", 6, WKT_HINT_BRACES},
    {"[1,2]", 6, WKT_HINT_NONE},
    {"1 2", 6, WKT_HINT_NO_KIND},
    {"-71.06,42.28", 6, WKT_HINT_NO_KIND},
    {"(1 2)", 6, WKT_HINT_NO_KIND},
    {"GEOMETRYCOLLECTION(1 2,3 4)", 6, WKT_HINT_NO_KIND},
    {"-x", 6, WKT_HINT_NONE},
    {"POLYGON(0 0,1 0,0 1,0 0)", 6, WKT_HINT_PARENTHESIS},
    {"MULTIPOLYGON((0 0,1 0,0 1,0 0))", 6, WKT_HINT_PARENTHESIS},
    {"MULTILINESTRING(-1 0,1 1)", 6, WKT_HINT_PARENTHESIS},
    {"POINT 1 2", 6, WKT_HINT_PARENTHESIS},
    {"POINT Z 1 2 3", 6, WKT_HINT_PARENTHESIS},
    {"POLYGON((0 0,1 0,0 1,0 0),0 0)", 6, WKT_HINT_PARENTHESIS},
    {"POINT x", 6, WKT_HINT_NONE},
};

static void test_hints(void) {
    size_t i;
    for (i = 0; i < sizeof hints / sizeof *hints; i++) {
        uint32_t hint = 99, of_whole = 99;
        allocations = 0;
        CHECK(wkt_hint(BYTES(hints[i].text), hints[i].places, &hint) == WKT_OK && hint == hints[i].hint);
        CHECK(wkt_hint(BYTES(hints[i].text), hints[i].places | WKT_WHOLE, &of_whole) == WKT_OK && of_whole == hint);
        CHECK(allocations == 0);
    }
}

/* Numbers of nines, with so many digits before and after the point: which have the hint that 18 places read them. By hand:
 * they are refused where `before` + `places` are more than 38, as 2^127 has 39 digits and begins with 17. */
static void test_fewer(void) {
    static const char nines[] = "99999999999999999999999999999999999999999";
    uint32_t before, after, places;
    for (before = 1; before <= 40; before++)
        for (after = 0; after <= 36; after++)
            for (places = after; places <= 36; places++) {
                char text[128];
                uint32_t hint = 99;
                int fewer = places > 18 && after <= 18 && before <= 20;
                snprintf(text, sizeof text, "POINT(-%.*s.%.*s 2)", (int)before, nines, (int)after, nines);
                CHECK(wkt_hint(BYTES(text), places, &hint) == (before + places > 38 ? WKT_OK : WKT_ACCEPTED));
                if (before + places <= 38) continue;
                CHECK(hint == (fewer ? WKT_HINT_FEWER : WKT_HINT_LARGE));
                if (fewer) CHECK(wkt_canonical(BYTES(text), 18, out, ROOM, &needed, &end_at) == WKT_OK);
            }
}

/* The hint's status where it isn't WKT_OK, and that it is left as it was. */
static wkt_status no_hint(const char *text, uint32_t places) {
    uint32_t hint = 99;
    wkt_status status = wkt_hint(BYTES(text), places, &hint);
    CHECK(hint == 99);
    return status;
}

static void test_no_hints(void) {
    /* Nearly refused: as many places as are asked for, behind zeros; the largest number. */
    CHECK(no_hint("POINT(0.1234560 2)", 6) == WKT_ACCEPTED);
    CHECK(no_hint("POINT(1.0 2)", 0) == WKT_ACCEPTED);
    CHECK(no_hint("POINT(170141183460469231731687303715884105727 0)", 0) == WKT_ACCEPTED);
    CHECK(no_hint("POINT(1 2))", 6) == WKT_ACCEPTED);
    CHECK(no_hint("POINT(1 2)", 6 | WKT_WHOLE) == WKT_ACCEPTED);
    CHECK(no_hint("POINT(1 2))", 6 | WKT_WHOLE) == WKT_NOT_WHOLE);
    CHECK(no_hint("POINT()\xff", 6) == WKT_NOT_UTF8);
    CHECK(no_hint("POINT(1 2)", 37) == WKT_NO_PLACES);
    CHECK(no_hint("POINT()", 37 | WKT_WHOLE) == WKT_NO_PLACES);
    CHECK(no_hint("POINT()", 255) == WKT_NO_PLACES);
    CHECK(no_hint("POINT()", UINT32_MAX) == WKT_NO_PLACES);
}

/* What follows a geometry: where it begins, or 0 where nothing does. */
static const struct {
    const char *text;
    size_t size, rest;
} wholes[] = {
    {"POINT(1 2)", 10, 0},    {"  POINT ( 1 2 ) \t\r\n", 19, 0},        {"POINT(1 2) x", 12, 11},
    {"POINT(1 2)x", 11, 10},  {"POINT(1 2) \t\r\n POINT(3 4)", 25, 15}, {"POINT(1 2))", 11, 10},
    {"POINT(1 2)\0", 11, 10}, {"POINT EMPTY \xc3\xa9", 14, 12},         {"GEOMETRYCOLLECTION(POINT(1 2)) ,", 32, 31},
};

static void test_wholes(void) {
    size_t i;
    for (i = 0; i < sizeof wholes / sizeof *wholes; i++) {
        const uint8_t *text = (const uint8_t *)wholes[i].text;
        size_t size = wholes[i].size, rest = wholes[i].rest, start = 99, stop = 99;
        uint32_t message = 99, expected = 99, hint = 99;
        wkt_status wanted = rest ? WKT_NOT_WHOLE : WKT_ACCEPTED;
        allocations = 0;
        CHECK(wkt_explain(text, size, 6, &message, &start, &stop, &expected) == WKT_ACCEPTED && start == 99 &&
              stop == 99);
        CHECK(wkt_explain(text, size, 6 | WKT_WHOLE, &message, &start, &stop, &expected) == wanted);
        CHECK(rest ? start == rest && stop == size : start == 99 && stop == 99);
        CHECK(message == 99 && expected == 99 && allocations == 0);
        CHECK(wkt_hint(text, size, 6 | WKT_WHOLE, &hint) == wanted && hint == 99);
    }
}

static void test_refused_wholes(void) {
    size_t start = 99, stop = 99;
    uint32_t message = 99, expected = 99;
    CHECK(wkt_explain(BYTES("POINT(1) x"), 6 | WKT_WHOLE, &message, &start, &stop, &expected) == WKT_OK);
    CHECK(start == 7 && stop == 8 && message == 7 && expected == WKT_EXPECTED_Y);
    CHECK(wkt_explain(BYTES("POINT(1 2)\xff"), 6 | WKT_WHOLE, &message, &start, &stop, &expected) == WKT_NOT_UTF8);
    CHECK(wkt_explain(BYTES("POINT(1)"), 37 | WKT_WHOLE, &message, &start, &stop, &expected) == WKT_NO_PLACES);
    CHECK(wkt_explain(BYTES("POINT(1)"), 255, &message, &start, &stop, &expected) == WKT_NO_PLACES);
    CHECK(wkt_explain(BYTES("POINT(1) x"), 18 | WKT_WHOLE, &message, &start, &stop, &expected) == WKT_OK);
    CHECK(start == 7 && stop == 8 && message == 7 && expected == WKT_EXPECTED_Y);
}

/* Texts of every length up to 300 bytes, since short ones are copied before zeros. The text ends too early in a number, at
 * its end; the last number isn't closed; the last byte isn't UTF-8; a NUL ends the geometry's text, and more follows. */
static void test_lengths(void) {
    size_t size, start, stop;
    uint32_t message, expected;
    for (size = 9; size < 300; size++) {
        char text[301];
        const uint8_t *bytes = (const uint8_t *)text;
        memset(text, ' ', size);
        memcpy(text, "POINT(1", 7);
        text[size - 1] = '2';
        message = expected = start = stop = 99;
        CHECK(wkt_explain(bytes, size, 6, &message, &start, &stop, &expected) == WKT_OK && message == 7);
        CHECK(start == size && stop == size && expected == WKT_EXPECTED_CLOSING);
        text[size - 1] = '(';
        CHECK(wkt_explain(bytes, size, 6, &message, &start, &stop, &expected) == WKT_OK && message == 7);
        CHECK(start == size - 1 && stop == size && expected == WKT_EXPECTED_Y);
        text[size - 1] = 'a';
        CHECK(wkt_explain(bytes, size - 1, 6, &message, &start, &stop, &expected) == WKT_OK && start == size - 1);
        text[size - 1] = '\xc3';
        CHECK(wkt_explain(bytes, size, 6, &message, &start, &stop, &expected) == WKT_NOT_UTF8);
        memcpy(text, "POINT(1 2)", size > 10 ? 10 : size);
        if (size <= 10) continue;
        text[size - 1] = '\0';
        message = expected = start = stop = 99;
        CHECK(wkt_explain(bytes, size, 6, &message, &start, &stop, &expected) == WKT_ACCEPTED);
        CHECK(wkt_explain(bytes, size, 6 | WKT_WHOLE, &message, &start, &stop, &expected) == WKT_NOT_WHOLE);
        CHECK(start == size - 1 && stop == size && message == 99 && expected == 99);
        text[size - 1] = ' ';
        CHECK(wkt_explain(bytes, size, 6 | WKT_WHOLE, &message, &start, &stop, &expected) == WKT_ACCEPTED);
    }
}

static void test_words(void) {
    static const char *const messages[] = WKT_MESSAGES;
    static const char *const words[] = WKT_HINTS;
    uint32_t status, count = sizeof messages / sizeof *messages;
    for (status = 0; status < count; status++) CHECK(!strcmp(wkt_message(status), messages[status]));
    CHECK(!strcmp(wkt_message(WKT_OK), "") && !strcmp(wkt_message(count), "") && !strcmp(wkt_message(UINT32_MAX), ""));
    CHECK(!strcmp(wkt_message(7), "Missing closing parenthesis for type"));
    CHECK(!strcmp(wkt_message(WKT_NOT_SUPPORTED), "The processor is not supported"));
    CHECK(!strcmp(wkt_message(WKT_TOO_LONG), "A size is more than PTRDIFF_MAX"));
    CHECK(sizeof words / sizeof *words == WKT_HINT_PARENTHESIS + 1 && strstr(words[WKT_HINT_PLACES], "%u"));
}

void test_explain(void) {
    test_hints();
    test_fewer();
    test_no_hints();
    test_wholes();
    test_refused_wholes();
    test_lengths();
    test_words();
}
