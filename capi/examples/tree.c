/* cc -Icapi/out capi/examples/tree.c capi/out/libwkt.a -o tree
 * Reads each argument as a geometry of any kind, and prints it as a tree. */
#include "wkt.h"
#include <inttypes.h>
#include <stdio.h>
#include <stdlib.h>
#include <string.h>

enum { PLACES = 6 };

/* A number of units that fit 64 bits, as a decimal; any other in its halves. */
static void print_units(WktUnits n) {
    if (n.high != -(int64_t)(n.low >> 63)) {
        printf(" (%" PRId64 " * 2^64 + %" PRIu64 " units)", n.high, n.low);
        return;
    }
    uint64_t size = n.high < 0 ? -n.low : n.low;
    printf(" %s%" PRIu64 ".%06" PRIu64, n.high < 0 ? "-" : "", size / 1000000, size % 1000000);
}

/* Prints the events, each a step further in than the geometry that it is in; how many numbers they take. */
static size_t print_tree(const uint64_t *events, size_t count, const WktUnits *numbers) {
    static const char *const kinds[] = WKT_KINDS, *const dimensions[] = WKT_DIMENSIONS;
    static const size_t sizes[] = {2, 3, 3, 4};
    size_t at = 0, size = 2;
    int depth = 0;
    for (size_t i = 0; i < count; i++) {
        uint64_t event = events[i];
        if (event == WKT_EVENT_END) {
            depth--;
        } else if (event >= WKT_EVENT_BEGIN) {
            /* Counts stand only in the geometry that began last. */
            uint32_t dimension = WKT_EVENT_DIMENSION(event);
            printf("%*s%s %s\n", 2 * depth, "", kinds[WKT_EVENT_KIND(event)], dimensions[dimension]);
            size = sizes[dimension];
            depth++;
        } else {
            printf("%*s%" PRIu64 ":", 2 * depth, "", event);
            for (size_t end = at + (size_t)event * size; at < end; at++) print_units(numbers[at]);
            printf("\n");
        }
    }
    return at;
}

static int print_text(const char *text) {
    size_t length = strlen(text), event_count, number_count, end;
    /* No text has more. */
    size_t room = length / 2 + 1;
    uint64_t *events = (uint64_t *)malloc(room * sizeof *events);
    WktUnits *numbers = (WktUnits *)malloc(room * sizeof *numbers);
    wkt_status s = WKT_NO_MEMORY;
    if (events && numbers)
        s = wkt_read_events((const uint8_t *)text, length, PLACES | WKT_WHOLE, events, room, numbers, room,
                            &event_count, &number_count, &end);
    if (s == WKT_OK && print_tree(events, event_count, numbers) != number_count) s = WKT_NOT_ARRAYS;
    if (s != WKT_OK) printf("%s: %s\n", text, wkt_message(s));
    free(events);
    free(numbers);
    return s != WKT_OK;
}

int main(int count, char **texts) {
    int failed = 0;
    for (int i = 1; i < count; i++) failed |= print_text(texts[i]);
    return failed;
}
