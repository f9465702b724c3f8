/* The keys that stores keep: keys < tests/data/keys.tsv. Each row is a text, and its canonical text at 0, 6, 15, 18, 24 and
 * 36 places, or `refused`, with tabs between. They were made by another program, from the rules alone, and stay: a release
 * that changes one of them fails here. Each is compared with what wkt_canonical, wkt_column_canonical and wkt_lines give. */
#include "wkt.h"
#include <stdio.h>
#include <stdlib.h>
#include <string.h>

#define MOST 4096
#define ROOM (1 << 20)
#define FIELDS 7

static const uint32_t PLACES[] = {0, 6, 15, 18, 24, 36};
static char file[ROOM];
static char *fields[MOST][FIELDS];
static size_t rows, wrong;
static uint8_t texts[ROOM], out[ROOM];
static int64_t offsets[MOST + 1], out_offsets[MOST + 1];
static wkt_status statuses[MOST];

static void expect(const char *call, size_t row, size_t column, wkt_status status, const uint8_t *given, size_t len) {
    const char *want = fields[row][column + 1];
    int refused = status >= 1 && status <= WKT_LAST_REFUSAL;
    if (strcmp(want, "refused") == 0 ? refused : status == WKT_OK && len == strlen(want) && !memcmp(given, want, len))
        return;
    wrong++;
    printf("%s, %u places, of %s: status %u, %.*s, but wanted %s\n", call, (unsigned)PLACES[column], fields[row][0],
           (unsigned)status, status == WKT_OK ? (int)len : 0, (const char *)given, want);
}

/* Splits the input into the fields of its rows; the head is passed over. */
static int read_rows(void) {
    size_t len = fread(file, 1, ROOM - 1, stdin), i;
    char *line = strtok(file, "\n");
    if (len == ROOM - 1) return 0;
    for (; line; line = strtok(NULL, "\n")) {
        if (line[0] == '#') continue;
        if (rows == MOST) return 0;
        for (i = 0; i < FIELDS; i++) {
            fields[rows][i] = line;
            line = strchr(line, '\t');
            if (!line != (i == FIELDS - 1)) return 0;
            if (line) *line++ = 0;
        }
        rows++;
    }
    return rows > 0;
}

static void one_by_one(size_t column) {
    size_t row, needed, end;
    for (row = 0; row < rows; row++) {
        const char *text = fields[row][0];
        wkt_status status =
            wkt_canonical((const uint8_t *)text, strlen(text), PLACES[column], out, ROOM, &needed, &end);
        expect("wkt_canonical", row, column, status, out, needed);
    }
}

/* The texts one after the other, with so many line feeds after each. */
static size_t joined(size_t feeds) {
    size_t row, len = 0;
    for (row = 0; row < rows; row++) {
        offsets[row] = (int64_t)len;
        memcpy(texts + len, fields[row][0], strlen(fields[row][0]));
        len += strlen(fields[row][0]);
        if (feeds) texts[len++] = '\n';
    }
    offsets[rows] = (int64_t)len;
    return len;
}

static void as_a_column(size_t column) {
    size_t row, needed, len = joined(0);
    wkt_status status = wkt_column_canonical(texts, len, offsets, rows + 1, NULL, 0, PLACES[column], out, ROOM,
                                             out_offsets, rows + 1, statuses, rows, &needed);
    if (status != WKT_OK) {
        printf("wkt_column_canonical: status %u\n", (unsigned)status);
        wrong++;
        return;
    }
    for (row = 0; row < rows; row++)
        expect("wkt_column_canonical", row, column, statuses[row], out + out_offsets[row],
               (size_t)(out_offsets[row + 1] - out_offsets[row]));
}

static void as_lines(size_t column) {
    size_t row, needed, len = joined(1);
    const uint8_t *line = out;
    wkt_status status = wkt_lines(texts, len, PLACES[column], out, ROOM, &needed);
    if (status != WKT_OK) {
        printf("wkt_lines: status %u\n", (unsigned)status);
        wrong++;
        return;
    }
    for (row = 0; row < rows; row++) {
        const uint8_t *end = (const uint8_t *)memchr(line, '\n', (size_t)(out + needed - line));
        size_t size = end ? (size_t)(end - line) : 0;
        int refused = size == 7 && !memcmp(line, "refused", 7);
        expect("wkt_lines", row, column, refused ? 1 : WKT_OK, line, size);
        line = end ? end + 1 : out + needed;
    }
    if (line != out + needed) {
        printf("wkt_lines: more than %lu lines\n", (unsigned long)rows);
        wrong++;
    }
}

int main(void) {
    size_t column;
    if (!read_rows()) {
        printf("keys: no table, or one of another form\n");
        return 2;
    }
    for (column = 0; column < sizeof PLACES / sizeof *PLACES; column++) {
        one_by_one(column);
        as_a_column(column);
        as_lines(column);
    }
    printf("keys: %lu texts at 6 numbers of places, by three calls, %lu wrong\n", (unsigned long)rows,
           (unsigned long)wrong);
    return wrong ? 1 : 0;
}
