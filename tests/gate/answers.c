/* answers FILE..: calls every function for the text in each file, and writes a line of sums of what it answered: of statuses,
 * results and buffers, a sum for each function. Two builds of the library are the same if their lines are. */
#include "wkt.h"
#include <stdio.h>
#include <stdlib.h>
#include <string.h>

enum { MOST = 1 << 16, MANY = 3 };
static const uint32_t ALL = WKT_EWKT | WKT_EXPONENTS | WKT_NAN;

/* What is called: a text, and the one before it. */
static uint8_t *text, *other;
static size_t size, other_size;
static uint32_t places;
static uint64_t sum;

static void mix(const void *bytes, size_t count) {
    const uint8_t *at = (const uint8_t *)bytes;
    for (size_t i = 0; i < count; i++) sum = (sum ^ at[i]) * 1099511628211u;
}
static void mix_number(uint64_t number) {
    uint8_t bytes[8];
    for (int i = 0; i < 8; i++) bytes[i] = (uint8_t)(number >> 8 * i);
    mix(bytes, 8);
}

/* A buffer of exactly so many items, which is filled; what it holds afterwards, item by item; and it is freed. */
static void *buffer(size_t count, size_t width) {
    void *it = malloc(count * width + !count);
    if (!it) exit(2);
    memset(it, '#', count * width);
    return it;
}
static void mixed(void *it, size_t count, size_t width) {
    for (size_t i = 0; i < count; i++) {
        const uint8_t *item = (const uint8_t *)it + i * width;
        uint32_t four;
        uint64_t eight;
        size_t word;
        if (width == 4) {
            memcpy(&four, item, 4);
            mix_number(four);
        } else if (width == 8) {
            memcpy(&eight, item, 8);
            mix_number(eight);
        } else if (width == sizeof word) {
            memcpy(&word, item, sizeof word);
            mix_number(word);
        } else
            mix(item, width);
    }
    free(it);
}

static void canonical(void) {
    const size_t rooms[] = {2 * size + 65, size / 2, 13 * size + 100};
    for (int i = 0; i < 3; i++) {
        uint8_t *out = (uint8_t *)buffer(rooms[i], 1);
        size_t needed = 7, end = 8;
        mix_number(wkt_canonical(text, size, places, out, rooms[i], &needed, &end));
        mix_number(needed);
        mix_number(end);
        mixed(out, rooms[i], 1);
    }
}
static void same(void) {
    uint32_t is = 7;
    size_t end = 8, other_end = 9;
    mix_number(wkt_same(text, size, other, other_size, places, &is));
    mix_number(is);
    mix_number(wkt_same_ends(text, size, text, size, places, &is, &end, &other_end));
    mix_number(is);
    mix_number(wkt_same_ends(other, other_size, text, size, places, &is, &end, &other_end));
    mix_number(is);
    mix_number(end);
    mix_number(other_end);
}
static void explain(void) {
    uint32_t message = 7, expected = 8, hint = 9;
    size_t start = 10, stop = 11;
    mix_number(wkt_explain(text, size, places, &message, &start, &stop, &expected));
    mix_number(message);
    mix_number(start);
    mix_number(stop);
    mix_number(expected);
    mix_number(wkt_hint(text, size, places, &hint));
    mix_number(hint);
}
static void header(void) {
    uint32_t kind = 7, dimension = 8, srid = 9;
    size_t end = 10;
    mix_number(wkt_infer(text, size, &kind, &dimension));
    mix_number(kind);
    mix_number(dimension);
    mix_number(wkt_srid(text, size, &srid, &end));
    mix_number(srid);
    mix_number(end);
}
static void lines(void) {
    const size_t room = 8 * size + 65;
    uint8_t *out = (uint8_t *)buffer(room, 1);
    size_t needed = 7, taken = 8, written = 9;
    mix_number(wkt_lines(text, size, places, out, room, &needed));
    mix_number(needed);
    mixed(out, room, 1);
    out = (uint8_t *)buffer(room, 1);
    mix_number(wkt_lines_some(text, size, places, size % 2, out, room, &taken, &written));
    mix_number(taken);
    mix_number(written);
    mixed(out, written == 9 ? 0 : written, 1);
}
static void arrays(void) {
    const size_t room = size / 2 + 2;
    int64_t *numbers = (int64_t *)buffer(room, 8);
    size_t *rings = (size_t *)malloc(room * sizeof *rings), *polygons = (size_t *)malloc(room * sizeof *polygons);
    WktSizes sizes = {7, 8, 9, 10, 11, 12};
    if (!rings || !polygons) exit(2);
    for (size_t i = 0; i < room; i++) rings[i] = polygons[i] = 77;
    wkt_status status = wkt_arrays(text, size, places, &sizes, numbers, room, rings, room, polygons, room);
    mix_number(status);
    mix_number(sizes.kind);
    mix_number(sizes.dimension);
    mix_number(sizes.numbers);
    mix_number(sizes.end);
    if (status == WKT_OK) {
        const size_t most = 64 * size + 200;
        uint8_t *out = (uint8_t *)buffer(most, 1);
        size_t needed = 7;
        mix_number(wkt_from_arrays(sizes.kind, sizes.dimension, numbers, sizes.numbers, rings, sizes.rings, polygons,
                                   sizes.polygons, places & 63, out, most, &needed));
        mix_number(needed);
        mixed(out, most, 1);
    }
    mixed(numbers, room, 8);
    mixed(rings, room, sizeof *rings);
    mixed(polygons, room, sizeof *polygons);
}
static void events(void) {
    const size_t room = size / 2;
    uint64_t *list = (uint64_t *)buffer(room, 8);
    WktUnits *numbers = (WktUnits *)buffer(room, 16);
    size_t event_count = 7, number_count = 8, end = 9;
    wkt_status status =
        wkt_read_events(text, size, places, list, room, numbers, room, &event_count, &number_count, &end);
    mix_number(status);
    mix_number(event_count);
    mix_number(number_count);
    mix_number(end);
    mixed(list, status == WKT_OK ? room : 0, 8);
    for (size_t i = 0; status == WKT_OK && i < room; i++) {
        mix_number(numbers[i].low);
        mix_number((uint64_t)numbers[i].high);
    }
    free(numbers);
}

/* The text as a column: the whole of it, its halves with a null between. */
static void columns(void) {
    const int64_t half = (int64_t)(size / 2), all = (int64_t)size, offsets[MANY + 1] = {0, half, half, all};
    const uint8_t valid[1] = {(uint8_t)(size % 3 ? 7 : 5)};
    const size_t room = size + 70, most = 64 * size + 700;
    uint8_t *out = (uint8_t *)buffer(2 * size + 70, 1);
    int64_t ends[MANY + 1] = {7, 7, 7, 7}, number_ends[MANY + 1] = {7, 7, 7, 7}, ring_ends[MANY + 1] = {7, 7, 7, 7},
                        polygon_ends[MANY + 1] = {7, 7, 7, 7};
    wkt_status statuses[MANY] = {77, 77, 77};
    uint32_t kinds[MANY] = {7, 7, 7}, dimensions[MANY] = {7, 7, 7};
    size_t needed = 7, *rings = (size_t *)calloc(room, sizeof *rings),
           *polygons = (size_t *)calloc(room, sizeof *polygons);
    int64_t *numbers = (int64_t *)buffer(room, 8);
    WktColumnSizes sizes = {7, 8, 9};
    if (!rings || !polygons) exit(2);
    mix_number(wkt_column_canonical(text, size, offsets, MANY + 1, valid, 1, places, out, 2 * size + 70, ends, MANY + 1,
                                    statuses, MANY, &needed));
    mix_number(needed);
    mixed(out, 2 * size + 70, 1);
    for (int i = 0; i < MANY; i++) mix_number((uint64_t)ends[i] ^ statuses[i]);
    wkt_status status = wkt_column_arrays(text, size, offsets, MANY + 1, valid, 1, places, &sizes, kinds, MANY,
                                          dimensions, MANY, numbers, room, number_ends, MANY + 1, rings, room,
                                          ring_ends, MANY + 1, polygons, room, polygon_ends, MANY + 1, statuses, MANY);
    mix_number(status);
    if (status == WKT_OK) {
        uint8_t bits = 0;
        for (int i = 0; i < MANY; i++) {
            mix_number(statuses[i]);
            bits |= (uint8_t)((statuses[i] == WKT_OK) << i);
        }
        uint8_t *texts = (uint8_t *)buffer(most, 1);
        mix_number(wkt_column_from_arrays(kinds, MANY, dimensions, MANY, numbers, sizes.numbers, number_ends, MANY + 1,
                                          rings, sizes.rings, ring_ends, MANY + 1, polygons, sizes.polygons,
                                          polygon_ends, MANY + 1, &bits, 1, places & 63, texts, most, ends, MANY + 1,
                                          statuses, MANY, &needed));
        mix_number(needed);
        mixed(texts, most, 1);
    }
    mixed(numbers, room, 8);
    mixed(rings, room, sizeof *rings);
    mixed(polygons, room, sizeof *polygons);
}

static const struct {
    const char *name;
    void (*call)(void);
} calls[] = {{"canonical", canonical}, {"same", same},     {"explain", explain}, {"header", header},
             {"lines", lines},         {"arrays", arrays}, {"events", events},   {"columns", columns}};

int main(int count, char **files) {
    const uint32_t all_places[] = {0, 6, 18, 36, 18 | WKT_WHOLE, 6 | ALL, 18 | ALL | WKT_WHOLE};
    other = (uint8_t *)buffer(0, 1);
    for (int n = 1; n < count; n++) {
        FILE *file = fopen(files[n], "rb");
        uint8_t *whole = (uint8_t *)buffer(MOST, 1);
        if (!file || (size = fread(whole, 1, MOST, file)) == MOST) return 2;
        fclose(file);
        text = (uint8_t *)buffer(size, 1);
        memcpy(text, whole, size);
        free(whole);
        printf("%s", files[n]);
        for (size_t i = 0; i < sizeof calls / sizeof *calls; i++) {
            sum = 14695981039346656037u;
            for (size_t k = 0; k < sizeof all_places / sizeof *all_places; k++) {
                places = all_places[k];
                calls[i].call();
            }
            printf(" %s %08x", calls[i].name, (unsigned)(sum ^ sum >> 32));
        }
        printf("\n");
        free(other);
        other = text;
        other_size = size;
    }
    free(other);
    return 0;
}
