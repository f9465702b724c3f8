/* The functions that C calls, where no proved object is for the system: over wkt_module.c, which wasm2c made of the proved
 * module. ../../capi/pointers.c looks at the pointers and sizes, and then calls what stands here by the names proved_wkt_*.
 *
 * A call takes an instance of the module, which no other call has, copies its texts into that one's memory, and its answers
 * out. Nothing here is proved. It needs gcc or clang, for any processor of 32 or 64 bits. */
#include "../../include/wkt.h"
#include <setjmp.h>
#include <stdlib.h>
#include <string.h>
#define WKT_MODULE_HEAD
#include "wkt_module.c"

/* Where the plain one also saves which signals are blocked, it asks the system, at each call. */
#if defined __APPLE__ || defined __FreeBSD__ || defined __NetBSD__ || defined __OpenBSD__ || defined __DragonFly__
#define SET_JUMP _setjmp
#define LONG_JUMP _longjmp
#else
#define SET_JUMP setjmp
#define LONG_JUMP longjmp
#endif

typedef struct {
    Z_wkt_instance_t module;
    jmp_buf trap;  /* where a call goes on if the module's code traps */
    uint64_t laid; /* the end of what a call has laid out in the memory */
} machine;

enum { PAGE = 65536, MOST_PAGES = 65535, SPARES = 8, KEPT_PAGES = 128 };
/* The end of all that can be laid out, and what stands for more. */
static const uint64_t MOST = (uint64_t)MOST_PAGES * PAGE, TOO_MUCH = UINT64_MAX;

/* ---- What the module asks for. */

static _Thread_local machine *running;

void wasm_rt_trap(int why) { LONG_JUMP(running->trap, why); }

void wasm_rt_allocate_memory(wasm_rt_memory_t *memory, uint32_t pages, uint32_t max_pages) {
    memory->data = calloc(pages, PAGE);
    memory->max_pages = max_pages < MOST_PAGES ? max_pages : MOST_PAGES;
    memory->pages = memory->data ? pages : 0;
    memory->size = (uint64_t)memory->pages * PAGE;
}

void wasm_rt_free_memory(wasm_rt_memory_t *memory) { free(memory->data); }

/* ---- Instances: those that no call has are kept, but for those whose memory a long text has made large. */

static machine *spares[SPARES];

static machine *obtained(void) {
    for (int i = 0; i < SPARES; i++) {
        if (!__atomic_load_n(&spares[i], __ATOMIC_RELAXED)) continue;
        running = __atomic_exchange_n(&spares[i], (machine *)0, __ATOMIC_ACQUIRE);
        if (running) return running;
    }
    return running = calloc(1, sizeof(machine));
}

static void discard(machine *m) {
    Z_wkt_free(&m->module);
    free(m);
}

static wkt_status kept(machine *m, wkt_status status) {
    for (int i = 0; i < SPARES && m->module.w2c_memory.pages <= KEPT_PAGES; i++) {
        machine *none = 0;
        if (__atomic_load_n(&spares[i], __ATOMIC_RELAXED)) continue;
        if (__atomic_compare_exchange_n(&spares[i], &none, m, 0, __ATOMIC_RELEASE, __ATOMIC_RELAXED)) return status;
    }
    discard(m);
    return status;
}

/* A new instance gets its memory, or traps; each call begins behind the module's own. */
static void begin(machine *m) {
    if (!m->module.w2c_memory.data) Z_wkt_instantiate(&m->module);
    m->laid = (m->module.w2c___heap_base + 15) & ~(uint64_t)15;
}

/* A call has trapped: the module's code did, which is proved not to; or there was no memory for an instance. */
static wkt_status trapped(machine *m) {
    wkt_status status = m->module.w2c_memory.data ? WKT_NOT_SUPPORTED : WKT_NO_MEMORY;
    discard(m);
    return status;
}

/* ---- Memory of a call. Widths are those of an item in the module: 1, 4 or 8 bytes. */

static uint64_t lay(machine *m, uint64_t count, unsigned width) {
    uint64_t at = m->laid;
    if (at > MOST || count > (MOST - at) / width)
        m->laid = TOO_MUCH;
    else
        m->laid = (at + count * width + 15) & ~(uint64_t)15;
    return at;
}

/* Makes the memory larger by so many pages, between calls of the module; whether there is so much. A large calloc gives pages
 * that are there once they are written, which those of a realloc have to be at once. */
static int grows(wasm_rt_memory_t *memory, uint32_t pages) {
    const uint32_t sum = memory->pages + pages;
    if (pages > memory->max_pages - memory->pages || (uint64_t)sum * PAGE > SIZE_MAX / 2) return 0;
    uint8_t *data = calloc(sum, PAGE);
    if (!data) return 0;
    memcpy(data, memory->data, (size_t)memory->size);
    free(memory->data);
    memory->data = data;
    memory->pages = sum;
    memory->size = (uint64_t)sum * PAGE;
    return 1;
}

/* Whether the memory holds what is laid out: 0, or else the status. It grows by half at once if it can. */
static wkt_status holds(machine *m) {
    wasm_rt_memory_t *memory = &m->module.w2c_memory;
    if (m->laid <= memory->size) return WKT_OK;
    if (m->laid > MOST) return WKT_TOO_LONG;
    const uint32_t lacking = (uint32_t)((m->laid - memory->size + PAGE - 1) / PAGE), half = memory->pages / 2;
    return (lacking < half && grows(memory, half)) || grows(memory, lacking) ? WKT_OK : WKT_NO_MEMORY;
}

static uint8_t *at(machine *m, uint64_t address) { return m->module.w2c_memory.data + address; }

/* Copies items of `size` bytes here. */
static void put(machine *m, uint64_t to, unsigned width, const void *from, size_t count, size_t size) {
    uint8_t *bytes = at(m, to);
    const uint8_t *item = from;
    if (size == width && (width == 1 || !WKT_BIG_ENDIAN)) {
        if (count) memcpy(bytes, from, count * size);
        return;
    }
    for (size_t i = 0; i < count; i++, bytes += width, item += size) {
        uint64_t number = 0;
        if (size == 4) {
            uint32_t it;
            memcpy(&it, item, 4);
            number = it;
        } else
            memcpy(&number, item, 8);
        for (unsigned k = 0; k < width; k++) bytes[k] = (uint8_t)(number >> 8 * k);
    }
}

static void take(machine *m, uint64_t from, unsigned width, void *to, size_t count, size_t size) {
    const uint8_t *bytes = at(m, from);
    uint8_t *item = to;
    if (size == width && (width == 1 || !WKT_BIG_ENDIAN)) {
        if (count) memcpy(to, bytes, count * size);
        return;
    }
    for (size_t i = 0; i < count; i++, bytes += width, item += size) {
        uint64_t number = 0;
        for (unsigned k = 0; k < width; k++) number |= (uint64_t)bytes[k] << 8 * k;
        if (size == 4) {
            uint32_t it = (uint32_t)number;
            memcpy(item, &it, 4);
        } else
            memcpy(item, &number, 8);
    }
}

/* A struct of results is two words of 32 bits, and sizes; or sizes alone. */
#define SIZES_OF(it) (sizeof *(it) / sizeof(size_t) - (sizeof *(it) == sizeof(WktSizes) ? 8 / sizeof(size_t) : 0))
#define HEAD_OF(it) (sizeof *(it) == sizeof(WktSizes) ? 2u : 0u)

/* ---- The functions, as capi/functions.h lists them. */
#define NONE(...)
#define LAY(it, width, ...) const uint64_t it##_at = lay(m, it##_len, width);
/* Of a buffer no more is laid out than an answer may have. */
#define LAY_ANSWER(it, width, count, most) \
    const size_t it##_size = (size_t)least_of(it##_len, TIMES * (most)); \
    const uint64_t it##_at = lay(m, it##_size, width);
#define WIDTH_uint8_t 1
#define WIDTH_uint32_t 4
#define WIDTH_int64_t 8
#define WIDTH_size_t 8
#define LAY_ROOM(it, type, count) \
    const uint64_t it##_len = (count); \
    LAY(it, WIDTH_##type)
#define LAY_RESULT(it, ...) const uint64_t it##_at = lay(m, 1, 8);
#define LAY_RESULTS(it) const uint64_t it##_at = lay(m, 5, 8);
#define PUT(it, width) put(m, it##_at, width, it, it##_len, sizeof *(it));
#define PUT_RESULT(it, width) put(m, it##_at, width, it, 1, sizeof *(it));
#define PUT_RESULTS(it) \
    put(m, it##_at, 4, it, HEAD_OF(it), 4); \
    put(m, it##_at + 4 * HEAD_OF(it), 8, (const char *)(it) + 4 * HEAD_OF(it), SIZES_OF(it), sizeof(size_t));
/* An item of 16 bytes is two of 8. More than the buffer holds is an error of the module's code, and is never copied. */
#define WORDS(width) ((width) == 16 ? 2 : 1)
#define TAKE(it, width, count, most) \
    if ((count) > it##_size) wasm_rt_trap(OOB); \
    take(m, it##_at, (width) / WORDS(width), it, (count)*WORDS(width), sizeof *(it) / WORDS(width));
#define TAKE_RESULT(it, width) take(m, it##_at, width, it, 1, sizeof *(it));
#define TAKE_RESULTS(it) \
    take(m, it##_at, 4, it, HEAD_OF(it), 4); \
    take(m, it##_at + 4 * HEAD_OF(it), 8, (char *)(it) + 4 * HEAD_OF(it), SIZES_OF(it), sizeof(size_t));
/* Within a call of the module a name is the address of what has it here. */
#define ADDRESS(it, ...) const uint64_t it = it##_at;
#define ADDRESS_ANSWER(it, ...) const uint64_t it = it##_at, it##_len = it##_size;
#define BARE(...) __VA_ARGS__

/* The functions of capi/pointers.c call these by their names; each has an instance of its own. An answer may be so many `times`
 * as long as LIST says: in dialects as often as the text that is read is longer, by read_size. The function that calls setjmp
 * does nothing else, so it has no variable that a longjmp could lose. */
#define MACHINE_FUNCTION(name, LIST, times, ROOMS, parameters, passed, call) \
    static __attribute__((noinline)) wkt_status inner_##name(machine *m, BARE parameters) { \
        enum { TIMES = times }; \
        uint64_t before = 0; \
        wkt_status status = WKT_NO_MEMORY; \
        for (unsigned turn = 0; status == WKT_NO_MEMORY; turn++) { \
            begin(m); \
            LIST(LAY, LAY_ANSWER, LAY_RESULT, LAY_RESULTS) \
            ROOMS(LAY_ROOM) \
            if (m->laid == before) return status; \
            before = m->laid; \
            status = holds(m); \
            if (status) return status; \
            LIST(PUT, NONE, PUT_RESULT, PUT_RESULTS) { \
                LIST(ADDRESS, ADDRESS_ANSWER, ADDRESS, ADDRESS) \
                ROOMS(ADDRESS) \
                status = Z_wktZ_##name(&m->module, BARE call); \
            } \
            LIST(NONE, NONE, TAKE_RESULT, TAKE_RESULTS) \
            if (status == WKT_OK) { \
                LIST(NONE, TAKE, NONE, NONE) \
            } \
        } \
        return status; \
    } \
    wkt_status proved_##name parameters; \
    wkt_status proved_##name parameters { \
        machine *m = obtained(); \
        if (!m) return WKT_NO_MEMORY; \
        if (SET_JUMP(m->trap)) return trapped(m); \
        return kept(m, inner_##name(m, BARE passed)); \
    }
#define FUNCTION(name, LIST, parameters, passed) MACHINE_FUNCTION(name, LIST, 1, NO_ROOMS, parameters, passed, passed)
#define FUNCTION_IN_ROOMS(name, LIST, ROOMS, parameters, passed, proved, call) \
    MACHINE_FUNCTION(name, LIST, 1, ROOMS, parameters, passed, call)
#define FUNCTION_IN_DIALECTS(name, LIST, ROOMS, ROOMLESS, parameters, passed, proved, call, ITS_ROOMS, its_proved, \
                             its_call) \
    MACHINE_FUNCTION(name, LIST, 1, ROOMS, parameters, passed, call) \
    MACHINE_FUNCTION(name##_in, LIST, 12, ITS_ROOMS, parameters, passed, its_call)

#include "../../capi/functions.h"
