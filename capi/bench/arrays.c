/* The arrays of the lines of a file: arrays line|column FILE [PLACES]. "line" calls wkt_arrays for each line, "column"
 * wkt_column_arrays once for all of them, and "none" neither: what stands around the calls. See arrays.sh. */
#include "wkt.h"
#include <stdio.h>
#include <stdlib.h>
#include <string.h>

static void *room(size_t n, size_t size) {
    void *at = calloc(n, size);
    if (!at) exit(2);
    return at;
}

int main(int argc, char **argv) {
    if (argc < 3) return 2;
    uint32_t places = argc > 3 ? (uint32_t)atoi(argv[3]) : 6;
    FILE *file = fopen(argv[2], "rb");
    if (!file) return 2;
    fseek(file, 0, SEEK_END);
    size_t n = (size_t)ftell(file), rows = 0, refused = 0, total = 0;
    rewind(file);
    uint8_t *text = (uint8_t *)room(n + 1, 1);
    if (fread(text, 1, n, file) != n) return 2;
    fclose(file);
    size_t *offsets = (size_t *)room(n + 2, sizeof *offsets);
    for (size_t i = 0; i < n; i++)
        if (text[i] == '\n') offsets[++rows] = i + 1;
    int64_t *numbers = (int64_t *)room(n / 2 + 8, sizeof *numbers);
    size_t *rings = (size_t *)room(n / 2 + 8, sizeof *rings), *polygons = (size_t *)room(n / 2 + 8, sizeof *polygons);
    size_t most = n / 2 + 8;
    if (!strcmp(argv[1], "line")) {
        for (size_t i = 0; i < rows; i++) {
            WktSizes sizes;
            /* With its line feed, which is white space behind the geometry. */
            if (wkt_arrays(text + offsets[i], offsets[i + 1] - offsets[i], places, &sizes, numbers, most, rings, most,
                           polygons, most))
                refused++;
            else
                total += sizes.numbers;
        }
    } else if (!strcmp(argv[1], "column")) {
        WktColumnSizes sizes;
        uint32_t *kinds = (uint32_t *)room(3 * rows + 1, sizeof *kinds);
        size_t *ends = (size_t *)room(3 * (rows + 1), sizeof *ends);
        if (wkt_column_arrays(text, n, offsets, rows + 1, 0, 0, places, &sizes, kinds, rows, kinds + rows, rows,
                              numbers, most, ends, rows + 1, rings, most, ends + rows + 1, rows + 1, polygons, most,
                              ends + 2 * (rows + 1), rows + 1, kinds + 2 * rows, rows))
            return 1;
        for (size_t i = 0; i < rows; i++) refused += kinds[2 * rows + i] != 0;
        total = sizes.numbers;
    }
    printf("%zu rows, %zu refused, %zu numbers\n", rows, refused, total);
    return 0;
}
