/* What is tested of portable C beside the tests of capi/tests: accesses to the module's memory, a trap, memory that ends or is
 * given back, sizes past 4 GiB, an instance for each of several threads. It has wkt_portable.c in it, so that instances can be
 * looked at; ../Makefile links it with the rest. */
#include <stdlib.h>
/* Memory ends with the call of this number. */
static int callocs, refused = -1;
static void *one_calloc(size_t count, size_t size) {
    return __atomic_fetch_add(&callocs, 1, __ATOMIC_RELAXED) == refused ? NULL : calloc(count, size);
}
#define calloc one_calloc
#include "wkt_portable.c"
#include <pthread.h>
#include <stdio.h>

#define CHECK(holds) check((holds) ? 1 : 0, #holds, __LINE__)
static void check(int holds, const char *what, int line) {
    if (holds) return;
    printf("test.c, line %d: %s\n", line, what);
    exit(1);
}

static int canonical_is(const char *text, size_t text_len, const char *wanted) {
    uint8_t out[256];
    size_t needed = 0, end = 0;
    return wkt_canonical((const uint8_t *)text, text_len, 18, out, sizeof out, &needed, &end) == WKT_OK &&
           needed == strlen(wanted) && !memcmp(out, wanted, needed);
}
static int works(void) { return canonical_is("point ( 1.50 -2)", 16, "POINT(1.5 -2)"); }

/* How many instances are kept, and how many pages they have. */
static size_t kept_pages(size_t *count) {
    size_t pages = 0;
    *count = 0;
    for (int i = 0; i < SPARES; i++)
        if (spares[i]) {
            ++*count;
            pages += spares[i]->module.w2c_memory.pages;
        }
    return pages;
}

#define CHECK_TRAPS(access) \
    do { \
        volatile int trapped = 1; \
        running = &tester; \
        if (!SET_JUMP(tester.trap)) { \
            (void)(access); \
            trapped = 0; \
        } \
        CHECK(trapped); \
    } while (0)
static machine tester;
enum { SIZE = 16 };
static uint8_t bytes[SIZE];

/* Each access at the end of a memory of 16 bytes, of which byte i is 0x80 + i; then a byte further on, and far away. */
#define CHECK_LOAD(name, width, wanted) \
    CHECK(name(bytes, SIZE, SIZE - width) == (wanted)); \
    CHECK_TRAPS(name(bytes, SIZE, SIZE - width + 1)); \
    CHECK_TRAPS(name(bytes, SIZE, SIZE)); \
    CHECK_TRAPS(name(bytes, SIZE, 2 * (uint64_t)UINT32_MAX))
/* What stands in front of the bytes that are stored, and the whole memory where it traps, stays. */
#define CHECK_STORE(name, width) \
    do { \
        for (int i = 0; i < SIZE; i++) bytes[i] = (uint8_t)(0x80 + i); \
        CHECK_TRAPS((name(bytes, SIZE, SIZE - width + 1, 0), 0)); \
        CHECK_TRAPS((name(bytes, SIZE, 2 * (uint64_t)UINT32_MAX, 0), 0)); \
        for (int i = 0; i < SIZE; i++) CHECK(bytes[i] == 0x80 + i); \
        name(bytes, SIZE, SIZE - width, (taken_by_##name)0x1122334455667788); \
        for (int i = 0; i < SIZE - width; i++) CHECK(bytes[i] == 0x80 + i); \
        for (int i = 0; i < width; i++) CHECK(bytes[SIZE - width + i] == 0x88 - 0x11 * i); \
    } while (0)
typedef uint32_t taken_by_i32_store, taken_by_i32_store8, taken_by_i32_store16;
typedef uint64_t taken_by_i64_store, taken_by_i64_store8, taken_by_i64_store16, taken_by_i64_store32;

static void accesses(void) {
    for (int i = 0; i < SIZE; i++) bytes[i] = (uint8_t)(0x80 + i);
    CHECK_LOAD(i32_load8_u, 1, 0x8f);
    CHECK_LOAD(i64_load8_u, 1, 0x8f);
    CHECK_LOAD(i32_load8_s, 1, 0xffffff8f);
    CHECK_LOAD(i64_load8_s, 1, 0xffffffffffffff8f);
    CHECK_LOAD(i32_load16_u, 2, 0x8f8e);
    CHECK_LOAD(i64_load16_u, 2, 0x8f8e);
    CHECK_LOAD(i32_load16_s, 2, 0xffff8f8e);
    CHECK_LOAD(i64_load16_s, 2, 0xffffffffffff8f8e);
    CHECK_LOAD(i32_load, 4, 0x8f8e8d8c);
    CHECK_LOAD(i64_load32_u, 4, 0x8f8e8d8c);
    CHECK_LOAD(i64_load32_s, 4, 0xffffffff8f8e8d8c);
    CHECK_LOAD(i64_load, 8, 0x8f8e8d8c8b8a8988);
    CHECK_STORE(i32_store8, 1);
    CHECK_STORE(i64_store8, 1);
    CHECK_STORE(i32_store16, 2);
    CHECK_STORE(i64_store16, 2);
    CHECK_STORE(i32_store, 4);
    CHECK_STORE(i64_store32, 4);
    CHECK_STORE(i64_store, 8);
    bytes[0] = 0x7f;
    CHECK(i32_load8_s(bytes, SIZE, 0) == 0x7f && i64_load8_s(bytes, SIZE, 0) == 0x7f);
}

static void fills_and_copies(void) {
    for (int i = 0; i < SIZE; i++) bytes[i] = (uint8_t)i;
    memory_copy(bytes, SIZE, 0, SIZE, 0);
    memory_copy(bytes, SIZE, SIZE, 0, 0);
    memory_fill(bytes, SIZE, SIZE, 7, 0);
    CHECK_TRAPS((memory_copy(bytes, SIZE, 0, SIZE - 7, 8), 0));
    CHECK_TRAPS((memory_copy(bytes, SIZE, SIZE - 7, 0, 8), 0));
    CHECK_TRAPS((memory_copy(bytes, SIZE, 0, UINT32_MAX, UINT32_MAX), 0));
    CHECK_TRAPS((memory_fill(bytes, SIZE, SIZE - 7, 7, 8), 0));
    CHECK_TRAPS((memory_fill(bytes, SIZE, UINT32_MAX, 7, UINT32_MAX), 0));
    for (int i = 0; i < SIZE; i++) CHECK(bytes[i] == i);
    memory_copy(bytes, SIZE, 1, 0, SIZE - 1);
    for (int i = 0; i < SIZE; i++) CHECK(bytes[i] == (i ? i - 1 : 0));
    memory_copy(bytes, SIZE, 0, 1, SIZE - 1);
    for (int i = 0; i < SIZE; i++) CHECK(bytes[i] == (i < SIZE - 1 ? i : SIZE - 2));
    memory_fill(bytes, SIZE, SIZE - 4, 0x107, 4);
    for (int i = 0; i < SIZE; i++) CHECK(bytes[i] == (i < SIZE - 4 ? i : 7));
    volatile uint32_t zero = 0;
    volatile uint64_t large = (uint64_t)3 << 40;
    CHECK_TRAPS(DIV_U(large, zero));
    CHECK_TRAPS(REM_U(large, zero));
    CHECK(DIV_U(large, 2) == large / 2 && REM_U(large, 5) == large % 5);
    CHECK(I32_CTZ(zero) == 32 && I64_CTZ((uint64_t)zero) == 64 && I64_CTZ(large) == 40 && I32_CTZ((uint32_t)8) == 3);
    CHECK(I64_CLZ((uint64_t)zero) == 64 && I64_CLZ(large) == 22 && I64_CLZ((uint64_t)1) == 63);
}

/* With no stack left, the module's code traps. */
static void traps(void) {
    uint8_t out[9] = "########";
    size_t needed = 7, end = 8, count;
    CHECK(works());
    kept_pages(&count);
    CHECK(count == 1);
    spares[0]->module.w2c_g0 = 16;
    CHECK(wkt_canonical((const uint8_t *)"POINT(1 2)", 10, 18, out, 8, &needed, &end) == WKT_NOT_SUPPORTED);
    CHECK(needed == 7 && end == 8 && !memcmp(out, "########", 8));
    kept_pages(&count);
    CHECK(count == 0 && works());
}

static void forget(void) {
    for (int i = 0; i < SPARES; i++)
        if (spares[i]) {
            discard(spares[i]);
            spares[i] = NULL;
        }
}

/* Each allocation refused in turn: of an instance, its memory, and more memory. */
static void refusals(void) {
    static char text[200000];
    uint8_t out[9] = "########";
    size_t needed = 7, end = 8;
    memset(text, ' ', sizeof text);
    memcpy(text, "POINT(1 2)", 10);
    for (int n = 0; n < 3; n++) {
        forget();
        callocs = 0;
        refused = n;
        CHECK(wkt_canonical((const uint8_t *)text, sizeof text, 18, out, 8, &needed, &end) == WKT_NO_MEMORY);
        CHECK(needed == 7 && end == 8 && !memcmp(out, "########", 8));
        refused = -1;
        CHECK(works());
    }
    callocs = 0;
    CHECK(canonical_is(text, sizeof text, "POINT(1 2)") && works() && callocs <= 1);
}

/* A text of some megabytes, which is one geometry of many points, or one point and white space. */
static char *large(size_t size, int points) {
    char *text = malloc(size);
    CHECK(text != NULL);
    memset(text, ' ', size);
    memcpy(text, points ? "LINESTRING" : "POINT(1 2)", 10);
    if (!points) return text;
    for (size_t i = 10; i + 4 <= size; i += 4) memcpy(text + i, ",1 2", 4);
    text[10] = '(';
    text[size - 1] = ')';
    return text;
}

static void gives_back(void) {
    const size_t size = ((size_t)6 << 20) + 11;
    char *text = large(size, 0), *line = large(size, 1);
    uint8_t *out = malloc(size);
    size_t needed = 0, end = 0, count, i;
    CHECK(canonical_is(text, size, "POINT(1 2)"));
    CHECK(kept_pages(&count) <= KEPT_PAGES * count);
    CHECK(out && wkt_canonical((const uint8_t *)line, size, 0, out, size, &needed, &end) == WKT_OK);
    CHECK(needed == size && end == size && !memcmp(out, line, size));
    CHECK(wkt_canonical((const uint8_t *)line, size, 0, out, size - 1, &needed, &end) == WKT_TOO_SMALL &&
          needed == size);
    for (i = 0; i < 20; i++) CHECK(works());
    CHECK(kept_pages(&count) <= 2 * KEPT_PAGES);
    free(text);
    free(line);
    free(out);
}

/* Buffers that don't fit into the module's memory are refused, and not looked at. */
static void sizes(void) {
#if SIZE_MAX > UINT32_MAX
    uint8_t some[16] = "POINT(1 2)";
    size_t needed = 1, end = 2;
    CHECK(wkt_canonical(some, (size_t)1 << 32, 6, some, 16, &needed, &end) == WKT_TOO_LONG);
    CHECK(wkt_canonical(some, PTRDIFF_MAX, 6, some, 16, &needed, &end) == WKT_TOO_LONG);
    CHECK(needed == 1 && end == 2 && works());
#endif
}

static void *many(void *given) {
    int which = *(int *)given;
    char text[64], wanted[64];
    for (int i = 0; i < 2000; i++) {
        snprintf(text, sizeof text, "point( %d.50 %d )", which, i);
        snprintf(wanted, sizeof wanted, "POINT(%d.5 %d)", which, i);
        CHECK(canonical_is(text, strlen(text), wanted));
    }
    return NULL;
}

static void threads(void) {
    enum { MANY = 12 };
    pthread_t thread[MANY];
    int which[MANY];
    size_t count;
    for (int i = 0; i < MANY; i++) {
        which[i] = i;
        CHECK(!pthread_create(&thread[i], NULL, many, &which[i]));
    }
    for (int i = 0; i < MANY; i++) pthread_join(thread[i], NULL);
    kept_pages(&count);
    CHECK(count >= 1 && count <= SPARES && works());
}

int main(void) {
    accesses();
    fills_and_copies();
    traps();
    refusals();
    sizes();
    gives_back();
    threads();
    printf("portable C: accesses, traps, sizes, memory and threads are as they should be\n");
    return 0;
}
