/* A geometry of any kind as events and numbers: wkt_read_events. What is expected is written by hand from wkt.h. */
#include "calls.h"

#define EVENTS 24
static uint64_t events[EVENTS];
static size_t event_count, number_count;
static WktUnits numbers[EVENTS];

/* A text; its events: the letters of `plgqmac` begin a Point, LineString, .. GeometryCollection, and the digit behind says
 * its dimension; `.` ends it; a count is itself; and its numbers, which are its coordinates 1, 2, 3 .. */
static const struct {
    const char *text, *events;
    size_t numbers;
} rows[] = {
    {"POINT(1 2)", "p0 1 .", 2},
    {"point zm empty", "p3 0 .", 0},
    {"LINESTRING Z(1 2 3,4 5 6)", "l1 2 .", 6},
    {"LINESTRING M EMPTY", "l2 0 .", 0},
    {"POLYGON((1 2,3 4),EMPTY,(5 6))", "g0 2 0 1 .", 6},
    {"POLYGON EMPTY", "g0 .", 0},
    {"MULTIPOINT(1 2,EMPTY,(3 4))", "q0 1 0 1 .", 4},
    {"MULTILINESTRING((1 2,3 4),EMPTY)", "m0 2 0 .", 4},
    {"MULTIPOLYGON Z(((1 2 3)),EMPTY)", "a1 g1 1 . g1 . .", 3},
    {"GEOMETRYCOLLECTION EMPTY", "c0 .", 0},
    {"GEOMETRYCOLLECTION Z(POINT(1 2),GEOMETRYCOLLECTION(LINESTRING M(3 4 5)),POINT EMPTY)",
     "c1 p0 1 . c0 l2 1 . . p0 0 . .", 5},
};

/* Whether the events are those. */
static int are(const char *expected) {
    static const char letters[] = "plgqmac";
    size_t i = 0;
    for (; *expected; expected++) {
        const char *letter = strchr(letters, *expected);
        if (*expected == ' ') continue;
        uint64_t event;
        if (*expected == '.')
            event = WKT_EVENT_END;
        else if (letter)
            event = WKT_EVENT_BEGIN + 4 * (uint64_t)(letter - letters) + (uint64_t)(*++expected - '0');
        else
            event = (uint64_t)(*expected - '0');
        if (i == event_count || events[i++] != event) return 0;
    }
    return i == event_count;
}

static wkt_status read_events(const char *text, uint32_t places, size_t event_room, size_t number_room) {
    for (size_t i = 0; i < EVENTS; i++) {
        events[i] = 77;
        numbers[i].low = numbers[i].high = 77;
    }
    event_count = number_count = end_at = 77;
    return wkt_read_events(BYTES(text), places, events, event_room, numbers, number_room, &event_count, &number_count,
                           &end_at);
}

static int unset(void) { return event_count == 77 && number_count == 77 && end_at == 77; }

static void test_rows(void) {
    for (size_t i = 0; i < sizeof rows / sizeof *rows; i++) {
        const char *text = rows[i].text;
        size_t length = strlen(text), room = length / 2 < EVENTS ? length / 2 : EVENTS;
        CHECK(read_events(text, 0, room, room) == WKT_OK);
        CHECK(are(rows[i].events) && number_count == rows[i].numbers && end_at == length);
        for (size_t j = 0; j < EVENTS; j++) {
            CHECK(j < event_count || events[j] == 77);
            CHECK(numbers[j].low == (j < number_count ? j + 1 : 77) && numbers[j].high == (j < number_count ? 0 : 77));
        }
        size_t needed_events = event_count, needed_numbers = number_count;
        CHECK(read_events(text, 0, needed_events, needed_numbers) == WKT_OK);
        CHECK(read_events(text, 0, needed_events - 1, needed_numbers) == WKT_TOO_SMALL);
        CHECK(event_count == needed_events && number_count == needed_numbers && end_at == length);
        if (needed_numbers) CHECK(read_events(text, 0, needed_events, needed_numbers - 1) == WKT_TOO_SMALL);
        CHECK(wkt_read_events(BYTES(text), 0, NULL, 0, NULL, 0, &event_count, &number_count, &end_at) == WKT_TOO_SMALL);
        CHECK(event_count == needed_events && number_count == needed_numbers);
    }
}

static void test_units(void) {
    CHECK(read_events("POINT(-1 180)", 18, EVENTS, EVENTS) == WKT_OK);
    CHECK(numbers[0].low == (uint64_t)-1000000000000000000 && numbers[0].high == -1);
    /* 180 * 10^18 = 9 * 2^64 + 13979303336614035456 */
    CHECK(numbers[1].low == 13979303336614035456u && numbers[1].high == 9);
    CHECK(read_events("POINT(-170141183460469231731687303715884105728 0)", 0, EVENTS, EVENTS) == WKT_OK);
    CHECK(numbers[0].low == 0 && numbers[0].high == INT64_MIN);
}

static void test_statuses(void) {
    CHECK(read_events("POINT(1 2) x", 0, EVENTS, EVENTS) == WKT_OK && end_at == 10);
    CHECK(read_events("POINT(1 2) x", WKT_WHOLE, EVENTS, EVENTS) == WKT_NOT_WHOLE && end_at == 10 && event_count == 3);
    CHECK(read_events("POINT(1 2) x", WKT_WHOLE, 0, 0) == WKT_NOT_WHOLE);
    CHECK(read_events("POINT(1 2) \n", WKT_WHOLE, EVENTS, EVENTS) == WKT_OK);
    CHECK(read_events("POINT(1)", 0, EVENTS, EVENTS) == 7 && unset());
    CHECK(read_events("POINT(1 0.5)", 0, EVENTS, EVENTS) == WKT_BAD_NUMBER && unset());
    CHECK(read_events("GEOMETRYCOLLECTION(POINT(1 2)", 0, 0, 0) <= WKT_LAST_REFUSAL && unset());
    CHECK(read_events("POINT(1 2)\xff", 0, EVENTS, EVENTS) == WKT_NOT_UTF8 && unset());
    CHECK(read_events("POINT(1 2)", 37, EVENTS, EVENTS) == WKT_NO_PLACES && unset());
    CHECK(wkt_read_events(BYTES("POINT(1 2)"), 0, NULL, 1, numbers, EVENTS, &event_count, &number_count, &end_at) ==
          WKT_NULL_POINTER);
    CHECK(wkt_read_events(BYTES("POINT(1 2)"), 0, events, EVENTS, numbers, PTRDIFF_MAX / 16 + 1, &event_count,
                          &number_count, &end_at) == WKT_TOO_LONG);
}

void test_events(void) {
    long before = allocations;
    test_rows();
    test_units();
    test_statuses();
    CHECK(allocations == before);
}
