/* Scans a canonical text for its points or its parts, with their paths, which are those of PostGIS's ST_DumpPoints and
 * ST_Dump. SQLite's extension includes this file too.
 *
 * This is no second reader. It takes canonical texts alone, and checks nothing; headers are read by the library. No byte
 * past the end is read, whatever the text holds. SCAN_GROW(OLD, SIZE) gives memory, or NULL. */
#ifndef WKT_PARTS_H
#define WKT_PARTS_H

#include <stdbool.h>
#include <string.h>
#include <wkt.h>

/* Called for each point, and for each comma at least. */
#ifndef SCAN_PAUSE
#define SCAN_PAUSE() ((void)0)
#endif

typedef struct Span {
    const char *at;
    size_t length;
} Span;

typedef struct Scanner {
    const char *at, *end;
    int32_t *path;            /* for each open parenthesis, the number of the current item in it, from 1 on */
    size_t depth, size;       /* how many are open, and how many the memory of the path holds */
    uint32_t kind, dimension; /* of the last header */
    bool failed;              /* there was no memory */
} Scanner;

static const char *const scan_kinds[] = WKT_KIND_WORDS;
static const char *const scan_dimensions[] = WKT_DIMENSION_WORDS;

static Scanner scan_over(const char *text, size_t length) { return (Scanner){.at = text, .end = text + length}; }

static void scan_bytes(Scanner *scan, size_t bytes) {
    size_t left = (size_t)(scan->end - scan->at);
    scan->at += bytes < left ? bytes : left;
}

static bool scan_sees(const Scanner *scan, char c) { return scan->at < scan->end && *scan->at == c; }

static void scan_opening(Scanner *scan) {
    if (scan->depth == scan->size) {
        size_t size = scan->size ? 2 * scan->size : 16;
        int32_t *path = SCAN_GROW(scan->path, size * sizeof *path);
        if (path == NULL) {
            scan->failed = true;
            scan->at = scan->end;
            return;
        }
        scan->path = path;
        scan->size = size;
    }
    scan->path[scan->depth++] = 1;
    scan->at++;
}

/* A kind word and a dimension, of at most 21 bytes. A parenthesis follows, or a space and EMPTY. */
static void scan_header(Scanner *scan) {
    size_t left = (size_t)(scan->end - scan->at);
    if (wkt_infer((const uint8_t *)scan->at, left < 32 ? left : 32, &scan->kind, &scan->dimension) != WKT_OK) {
        scan->at = scan->end;
        return;
    }
    scan_bytes(scan, strlen(scan_kinds[scan->kind]));
    if (scan->dimension) scan_bytes(scan, 1 + strlen(scan_dimensions[scan->dimension]));
}

/* A token that is no number. */
static void scan_token(Scanner *scan) {
    SCAN_PAUSE();
    switch (*scan->at) {
    case '(': scan_opening(scan); break;
    case ')':
        if (scan->depth) scan->depth--;
        scan->at++;
        break;
    case ',':
        if (scan->depth) scan->path[scan->depth - 1]++;
        scan->at++;
        break;
    case ' ': scan->at++; break;
    case 'E': scan_bytes(scan, strlen("EMPTY")); break;
    default: scan_header(scan);
    }
}

static bool scan_sees_number(const Scanner *scan) {
    return scan->at < scan->end && (*scan->at == '-' || (*scan->at >= '0' && *scan->at <= '9'));
}

/* A number of a coordinate, and the space behind it. What may follow a number comes before what it may have. */
static Span scan_number(Scanner *scan) {
    Span number = {scan->at, 0};
    while (scan->at < scan->end && ',' < *scan->at) scan->at++;
    number.length = (size_t)(scan->at - number.at);
    if (scan_sees(scan, ' ')) scan->at++;
    return number;
}

/* The numbers of the next point: x, y, z and m; the length of those that it lacks is 0. False at the end. */
static bool scan_point(Scanner *scan, Span numbers[4]) {
    SCAN_PAUSE();
    while (scan->at < scan->end && !scan_sees_number(scan)) scan_token(scan);
    memset(numbers, 0, 4 * sizeof *numbers);
    for (int i = 0; i < 4 && scan_sees_number(scan); i++)
        numbers[i == 2 && scan->dimension == WKT_XYM ? 3 : i] = scan_number(scan);
    return numbers[0].length > 0;
}

static int32_t scan_count_points(Scanner *scan) {
    Span numbers[4];
    int32_t count = 0;
    while (scan_point(scan, numbers)) count++;
    return count;
}

static size_t scan_whole_digits(Span number) {
    size_t digits = 0;
    while (digits < number.length && number.at[digits] != '.') digits++;
    return digits;
}

/* Below 0 where the first number is less, above 0 where it is greater. Canonical numbers have no zeros before their first
 * digit or behind their last: so more digits before the point are more, and else the bytes decide. */
static int scan_compare(Span one, Span other) {
    bool is_minus = *one.at == '-';
    size_t digits = scan_whole_digits(one), other_digits = scan_whole_digits(other);
    int order = 0;
    if (is_minus != (*other.at == '-')) return is_minus ? -1 : 1;
    if (digits == other_digits) order = memcmp(one.at, other.at, one.length < other.length ? one.length : other.length);
    if (digits != other_digits) order = digits < other_digits ? -1 : 1;
    if (order == 0) order = one.length < other.length ? -1 : one.length > other.length;
    return is_minus ? -order : order;
}

/* The least and the greatest number of each axis; their length is 0 where there is none. */
static void scan_bounds(Scanner *scan, Span least[4], Span greatest[4]) {
    Span numbers[4];
    memset(least, 0, 4 * sizeof *least);
    memset(greatest, 0, 4 * sizeof *greatest);
    while (scan_point(scan, numbers))
        for (int i = 0; i < 4; i++) {
            if (numbers[i].length == 0) continue;
            if (least[i].length == 0)
                least[i] = greatest[i] = numbers[i];
            else if (scan_compare(numbers[i], least[i]) < 0)
                least[i] = numbers[i];
            else if (scan_compare(numbers[i], greatest[i]) > 0)
                greatest[i] = numbers[i];
        }
}

/* A body: EMPTY, with a space before it or not, or all up to the parenthesis that closes the first. */
static Span scan_body(Scanner *scan) {
    Span body;
    size_t open = 0;
    if (scan_sees(scan, ' ')) scan->at++;
    body.at = scan->at;
    if (scan_sees(scan, 'E'))
        scan_bytes(scan, strlen("EMPTY"));
    else
        do {
            if (scan_sees(scan, ',')) SCAN_PAUSE();
            open += scan_sees(scan, '(');
            open -= scan_sees(scan, ')');
            scan_bytes(scan, 1);
        } while (open != 0 && scan->at < scan->end);
    body.length = (size_t)(scan->at - body.at);
    return body;
}

/* A point, a line string or a polygon. Its dimension is the scanner's, and so is its path. */
typedef struct Part {
    uint32_t kind;
    Span body;
} Part;

/* The next part; false at the end. */
static bool scan_part(Scanner *scan, Part *part) {
    SCAN_PAUSE();
    while (scan->at < scan->end) {
        char c = *scan->at;
        if (c == ',' || c == ')') {
            scan_token(scan);
        } else if (scan->kind >= WKT_MULTIPOINT && scan->kind <= WKT_MULTIPOLYGON && (c == '(' || c == 'E')) {
            *part = (Part){scan->kind - WKT_MULTIPOINT, scan_body(scan)};
            return true;
        } else {
            scan_header(scan);
            if (scan->at < scan->end && scan->kind <= WKT_POLYGON) {
                *part = (Part){scan->kind, scan_body(scan)};
                return true;
            }
            if (scan_sees(scan, '('))
                scan_opening(scan);
            else
                scan_body(scan);
        }
    }
    return false;
}

/* For the parts of a text. A geometry without any point has none, as PostGIS has it. */
static Scanner scan_over_parts(const char *text, size_t length) {
    for (size_t i = 0; i < length; i++)
        if (text[i] >= '0' && text[i] <= '9') return scan_over(text, length);
    return scan_over(text, 0);
}

static int32_t scan_count_parts(Scanner *scan) {
    Part part;
    int32_t count = 0;
    while (scan_part(scan, &part)) count++;
    return count;
}

#endif
