/* GEOS's texts by its C API: geos DOUBLES GIVEN KINDS */
#include <geos_c.h>
#include <math.h>
#include <stdio.h>
#include <stdlib.h>
#include <string.h>
#include <wkt.h>

/* A writer, and the places with which its texts are read. */
typedef struct Call {
    const char *name;
    char trim;
    int precision; /* or -1, as a writer is made */
    uint32_t places;
} Call;

static const Call calls[] = {
    {"GEOSWKTWriter_setTrim(w, 1), _setRoundingPrecision(w, 18)", 1, 18, 18},
    {"GEOSWKTWriter_setTrim(w, 1), _setRoundingPrecision(w, 6)", 1, 6, 6},
    {"GEOSWKTWriter_setTrim(w, 1)", 1, -1, 18},
    {"GEOSWKTWriter_setTrim(w, 0)", 0, -1, 18},
    {"GEOSWKTWriter_setTrim(w, 0), _setRoundingPrecision(w, 6)", 0, 6, 6},
};
enum { CALLS = sizeof calls / sizeof *calls, SORTS = 3 };

/* From 3.12 on a writer that trims writes exponents, and M. */
#if GEOS_VERSION_MAJOR > 3 || GEOS_VERSION_MINOR >= 12
enum { WRITES_EXPONENTS = 1, MOST_DIMENSIONS = 4 };
#else
enum { WRITES_EXPONENTS = 0, MOST_DIMENSIONS = 3 };
#endif

static int is_refused(double x, const Call *call) {
    int has_exponent = WRITES_EXPONENTS && call->trim && ((x != 0 && fabs(x) < 1e-4) || fabs(x) >= 1e17);
    return has_exponent || fabs(x) >= 170141183460469231731.687303715884105727;
}

static void silent(const char *format, ...) { (void)format; }

static GEOSGeometry *point(double x, double y) {
    GEOSCoordSequence *at = GEOSCoordSeq_create(1, 2);
    GEOSCoordSeq_setX(at, 0, x);
    GEOSCoordSeq_setY(at, 0, y);
    return GEOSGeom_createPoint(at);
}

/* The key of a whole text with a 0 behind it, or 0 where it is refused. */
static int key_of(const char *text, uint32_t places, char *key, size_t room) {
    size_t length = strlen(text), needed, end;
    if (wkt_canonical((const uint8_t *)text, length, places | WKT_WHOLE, (uint8_t *)key, room - 1, &needed, &end) !=
        WKT_OK)
        return 0;
    key[needed] = 0;
    return 1;
}

typedef struct Counts {
    char sort[16];
    int texts, read, same, exact, against;
} Counts;

static void count(Counts *c, GEOSWKTWriter *writer, GEOSWKTReader *reader, const Call *call, double x, double y) {
    uint32_t places = call->places;
    char key[1024], again[1024];
    GEOSGeometry *g = point(x, y);
    char *text = GEOSWKTWriter_write(writer, g);
    int read = key_of(text, places, key, sizeof key);
    c->texts++;
    c->read += read;
    c->against += read == (is_refused(x, call) || is_refused(y, call));
    GEOSFree(text);
    GEOSGeom_destroy(g);
    if (!read) return;
    g = GEOSWKTReader_read(reader, key);
    text = GEOSWKTWriter_write(writer, g);
    c->same += key_of(text, places, again, sizeof again) && strcmp(key, again) == 0;
    double found_x, found_y;
    GEOSGeomGetX(g, &found_x);
    GEOSGeomGetY(g, &found_y);
    c->exact += found_x == x && found_y == y;
    GEOSFree(text);
    GEOSGeom_destroy(g);
}

/* What becomes of a key that the program reads and writes. */
static const char *passed(const char *key, GEOSWKTWriter *writer, GEOSWKTReader *reader) {
    static char again[1024];
    GEOSGeometry *g = GEOSWKTReader_read(reader, key);
    char *text = g ? GEOSWKTWriter_write(writer, g) : NULL;
    if (!text)
        strcpy(again, "not read there");
    else if (!key_of(text, 18, again, sizeof again))
        strcpy(again, "refused");
    GEOSFree(text);
    GEOSGeom_destroy(g);
    return again;
}

/* Of each sort of given keys how many stay the same. */
static void given(const char *file, const Call *call, GEOSWKTWriter *writer, GEOSWKTReader *reader) {
    static const char *const sorts[] = {"six", "all"};
    int keys[2] = {0}, same[2] = {0};
    char line[256];
    FILE *lines = fopen(file, "r");
    while (lines && fgets(line, sizeof line, lines)) {
        line[strcspn(line, "\n")] = 0;
        int sort = strncmp(line, "all", 3) == 0;
        const char *key = line + 4;
        keys[sort]++;
        same[sort] += strcmp(passed(key, writer, reader), key) == 0;
    }
    for (int i = 0; i < 2; i++) printf("GEOS\t%s\t%s\t%d\t%d\n", call->name, sorts[i], keys[i], same[i]);
}

/* The keys of the file that don't stay the same. */
static void kinds(const char *file, GEOSWKTWriter *writer, GEOSWKTReader *reader) {
    char key[256];
    FILE *keys = fopen(file, "r");
    while (keys && fgets(key, sizeof key, keys)) {
        key[strcspn(key, "\n")] = 0;
        const char *again = passed(key, writer, reader);
        if (strcmp(key, again) != 0) printf("GEOS\t%s\t%s\n", key, again);
    }
}

int main(int count_of_words, char **words) {
    Counts counts[CALLS][SORTS];
    char line[256], sort[16];
    double x, y;
    int sorts = 0;
    FILE *doubles = count_of_words == 4 ? fopen(words[1], "r") : NULL;
    if (!doubles) return 2;
    initGEOS(silent, silent);
    GEOSWKTReader *reader = GEOSWKTReader_create();
    GEOSWKTWriter *writers[CALLS];
    for (int i = 0; i < CALLS; i++) {
        writers[i] = GEOSWKTWriter_create();
        GEOSWKTWriter_setTrim(writers[i], calls[i].trim);
        GEOSWKTWriter_setOutputDimension(writers[i], MOST_DIMENSIONS);
        if (calls[i].precision >= 0) GEOSWKTWriter_setRoundingPrecision(writers[i], calls[i].precision);
    }
    memset(counts, 0, sizeof counts);
    while (fgets(line, sizeof line, doubles) && sscanf(line, "%15s %lf %lf", sort, &x, &y) == 3) {
        if (sorts == 0 || strcmp(counts[0][sorts - 1].sort, sort) != 0) {
            for (int i = 0; i < CALLS; i++) strcpy(counts[i][sorts].sort, sort);
            sorts++;
        }
        for (int i = 0; i < CALLS; i++) count(&counts[i][sorts - 1], writers[i], reader, &calls[i], x, y);
    }
    for (int i = 0; i < CALLS; i++) {
        for (int s = 0; s < sorts; s++) {
            Counts *c = &counts[i][s];
            printf("GEOS\t%s\t%s\t%d\t%d\t%d\t%d\t%d\n", calls[i].name, c->sort, c->texts, c->read, c->same, c->exact,
                   c->against);
        }
        given(words[2], &calls[i], writers[i], reader);
    }
    kinds(words[3], writers[0], reader);
    return 0;
}
