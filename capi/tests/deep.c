/* Nesting takes no stack: a million levels by a thread that has 256 KB of it. Then eight threads call everything at once,
 * and get the answers of one. */
#include "wkt.h"
#include <pthread.h>
#include <stdio.h>
#include <stdlib.h>
#include <string.h>

#define SMALL_STACK (256 * 1024)
#define DEEP "GEOMETRYCOLLECTION("
#define CHECK(holds) check((holds) ? 1 : 0, #holds, __LINE__)

static void check(int holds, const char *what, int line) {
    if (holds) return;
    printf("line %d: %s\n", line, what);
    exit(1);
}

static void *room(size_t size) {
    void *block = malloc(size);
    CHECK(block != NULL);
    return block;
}

/* So many collections in one another round the inner text, without the last parentheses that are `missing`. */
static uint8_t *nested(size_t levels, const char *inner, size_t missing, size_t *size) {
    size_t word = strlen(DEEP), n = 0, i;
    uint8_t *text = (uint8_t *)room(levels * (word + 1) + strlen(inner));
    for (i = 0; i < levels; i++, n += word) memcpy(text + n, DEEP, word);
    memcpy(text + n, inner, strlen(inner));
    n += strlen(inner);
    memset(text + n, ')', levels - missing);
    *size = n + levels - missing;
    return text;
}

/* What all calls say of a text, as one number. */
static uint64_t said;

static uint64_t mixed(uint64_t sum, const void *bytes, size_t size) {
    const uint8_t *at = (const uint8_t *)bytes;
    while (size--) sum = (sum ^ *at++) * 1099511628211u;
    return sum;
}

static uint64_t all_calls(const uint8_t *text, size_t size) {
    uint64_t sum = 14695981039346656037u;
    size_t needed = 0, end = 0, other = 0, start = 0, stop = 0;
    uint32_t same = 0, kind = 0, dimension = 0, message = 0, expected = 0;
    int64_t offsets[3] = {0, (int64_t)size, (int64_t)size}, ends[3] = {0, 0, 0};
    wkt_status statuses[2] = {0, 0}, status[7];
    WktSizes sizes;
    uint8_t *out = (uint8_t *)room(2 * size + 64);
    memset(&sizes, 0, sizeof sizes);
    status[0] = wkt_canonical(text, size, 6, out, 2 * size + 64, &needed, &end);
    sum = mixed(sum, out, status[0] ? 0 : needed);
    status[1] = wkt_same_ends(text, size, text, size, 6, &same, &end, &other);
    status[2] = wkt_explain(text, size, 6, &message, &start, &stop, &expected);
    status[3] = wkt_infer(text, size, &kind, &dimension);
    status[4] = wkt_lines(text, size, 6, out, 2 * size + 64, &needed);
    sum = mixed(sum, out, status[4] ? 0 : needed);
    status[5] =
        wkt_column_canonical(text, size, offsets, 3, NULL, 0, 6, out, 2 * size + 64, ends, 3, statuses, 2, &needed);
    sum = mixed(sum, out, status[5] ? 0 : needed);
    status[6] = wkt_arrays(text, size, 6, &sizes, NULL, 0, NULL, 0, NULL, 0);
    free(out);
    sum = mixed(sum, status, sizeof status);
    sum = mixed(sum, statuses, sizeof statuses);
    sum = mixed(sum, ends, sizeof ends);
    sum = mixed(sum, &end, sizeof end);
    sum = mixed(sum, &start, sizeof start);
    sum = mixed(sum, &stop, sizeof stop);
    return mixed(mixed(sum, &same, sizeof same), &sizes.numbers, sizeof sizes.numbers);
}

/* Whether canonical texts are the texts themselves, and what is refused is refused, however deep. */
static void *deep(void *levels) {
    size_t n = *(size_t *)levels, size, needed = 0, end = 0, start = 0, stop = 0;
    uint32_t same = 9, message = 0, expected = 0;
    uint8_t *text = nested(n, "POINT(1 2)", 0, &size), *open = nested(n, "POINT(1 2)", 1, &end),
            *out = (uint8_t *)room(2 * size + 8);
    CHECK(wkt_canonical(text, size, 18, out, size, &needed, &end) == WKT_OK);
    CHECK(needed == size && end == size && !memcmp(out, text, size));
    CHECK(wkt_same(text, size, text, size, 18, &same) == WKT_OK && same == 1);
    CHECK(wkt_lines(text, size, 18, out, size + 1, &needed) == WKT_OK && needed == size + 1 &&
          !memcmp(out, text, size));
    CHECK(wkt_explain(text, size, 18, &message, &start, &stop, &expected) == WKT_ACCEPTED);
    CHECK(wkt_canonical(open, size - 1, 18, out, size, &needed, &end) == 7);
    CHECK(wkt_explain(open, size - 1, 18, &message, &start, &stop, &expected) == WKT_OK && start == size - 1 &&
          message == 7);
    all_calls(text, size);
    free(text);
    free(open);
    text = nested(n, "POINT(1 x)", 0, &size);
    CHECK(wkt_canonical(text, size, 18, out, size, &needed, &end) == 9);
    CHECK(wkt_explain(text, size, 18, &message, &start, &stop, &expected) == WKT_OK && start == 19 * n + 8 &&
          expected == 6);
    free(text);
    free(out);
    return NULL;
}

static const char *const texts[] = {"POINT(1 2)",
                                    "point z empty",
                                    "LINESTRING(0 0,1 1.50,2 2)",
                                    "POLYGON((0 0,4 0,0 4,0 0),(1 1,2 1,1 2,1 1)) x",
                                    "MULTIPOINT(1 2,(3 4),EMPTY)",
                                    "GEOMETRYCOLLECTION(POINT(1 2),LINESTRING EMPTY)",
                                    "POINT(1",
                                    "POINT(1 2)\nPOINT(3 4)\nno",
                                    "POINT(1.1234567 2)",
                                    "\xff"};
enum { TEXTS = sizeof texts / sizeof *texts, THREADS = 8, TURNS = 2000 };

static uint64_t all_texts(void) {
    uint64_t sum = 0;
    size_t i;
    for (i = 0; i < TEXTS; i++) sum = sum * 31 + all_calls((const uint8_t *)texts[i], strlen(texts[i]));
    return sum;
}

static void *over_and_over(void *unused) {
    int turn;
    (void)unused;
    for (turn = 0; turn < TURNS; turn++) CHECK(all_texts() == said);
    return NULL;
}

static void in_threads(void *(*call)(void *), void *with, int count) {
    pthread_t threads[THREADS];
    pthread_attr_t small;
    int i;
    CHECK(pthread_attr_init(&small) == 0 && pthread_attr_setstacksize(&small, SMALL_STACK) == 0);
    for (i = 0; i < count; i++) CHECK(pthread_create(&threads[i], &small, call, with) == 0);
    for (i = 0; i < count; i++) CHECK(pthread_join(threads[i], NULL) == 0);
    CHECK(pthread_attr_destroy(&small) == 0);
}

int main(void) {
    size_t million = 1000000, thousands = 100000;
    in_threads(deep, &million, 1);
    in_threads(deep, &thousands, THREADS);
    said = all_texts();
    in_threads(over_and_over, NULL, THREADS);
    printf("a million levels on 256 KB; %d threads, %d texts, %d times\n", THREADS, TEXTS, TURNS);
    return 0;
}
