/* The functions that C calls. Each looks at the processor, at its pointers and at its sizes, and then is the proved function
 * of its name, which build.sh renames from wkt_NAME to proved_wkt_NAME. Nothing here is proved. */
#pragma GCC visibility push(default)
#include "../include/wkt.h"
#pragma GCC visibility pop
#include <stdlib.h>

/* Its highest bit is set, but where the processor was seen to be supported. */
static uintptr_t unseen = ~(UINTPTR_MAX >> 1);
__attribute__((constructor)) static void see(void) {
    if (wkt_supported()) unseen = 0;
}

/* What is passed in place of NULL for a buffer of size 0. */
static int64_t nothing;

/* Whether something may be wrong, at little cost: the highest bit of `unseen`, of a size or of a pointer less 1 is set, as it is
 * where the pointer is NULL; or one of the five highest of a number of items of 4, 8 or 16 bytes. */
#define MISSES(at, ...) | ((uintptr_t)(at)-1)
#define BYTES(at, ...) | (sizeof *(at) == 1 ? at##_len : 0)
#define ITEMS(at, ...) | (sizeof *(at) == 1 ? 0 : at##_len)
#define NONE(...)
#define HIGH_BITS (8 * sizeof(size_t) - 5)
#define MAY_BE_WRONG(LIST, SIZE) \
    ((intptr_t)(unseen LIST(SIZE, BYTES, NONE, NONE) LIST(MISSES, MISSES, MISSES, MISSES)) < 0 || \
     ((size_t)0 LIST(ITEMS, ITEMS, NONE, NONE)) >> HIGH_BITS)

/* What is wrong. */
#define CHECK_BUFFER(at, ...) \
    if (!(at) && at##_len) return WKT_NULL_POINTER; \
    if (at##_len > PTRDIFF_MAX / sizeof *(at)) return WKT_TOO_LONG; \
    if (!(at)) at = (void *)&nothing;
#define CHECK_RESULT(at, ...) \
    if (!(at)) return WKT_NULL_POINTER;

#define SIZE_OF(it, type, count) size_t it##_len = (size_t)(count);
#define ANY_OF(it, type, count) || it##_len
#define SUM_OF(it, type, count) +((it##_len * sizeof(type) + 7) & ~(size_t)7)
#define NO_ITEM(it, type, count) it##_len = 0;
#define NO_ROOM(it, type, count) \
    type *it = (type *)&nothing; \
    (void)it;
#define PLACED(it, type, count) \
    type *it = (type *)(void *)at; \
    at += (it##_len * sizeof(type) + 7) & ~(size_t)7;

/* A function: `quick` is its answer where nothing may be wrong, no room is needed, and no dialect is asked for. Else it is that
 * of `slow`, or of `in_dialects`. */
#define CHECKED(name, LIST, SIZE, ROOMS, parameters, passed, quick, slow, ASKS, in_dialects) \
    static __attribute__((noinline, cold)) wkt_status checked_##name parameters { \
        if (unseen && !wkt_supported()) return WKT_NOT_SUPPORTED; \
        LIST(CHECK_BUFFER, CHECK_BUFFER, CHECK_RESULT, CHECK_RESULT) \
        if (ASKS) return in_dialects passed; \
        return slow passed; \
    } \
    wkt_status name parameters { \
        const unsigned turn = 0; \
        ROOMS(SIZE_OF) \
        ROOMS(NO_ROOM) \
        (void)turn; \
        if (__builtin_expect(0 ROOMS(ANY_OF), 0)) return checked_##name passed; \
        if (__builtin_expect(MAY_BE_WRONG(LIST, SIZE) || ASKS, 0)) return checked_##name passed; \
        return quick; \
    }
#define ASKS_DIALECTS (places > MOST_PLAIN)

#define FUNCTION(name, LIST, parameters, passed) \
    extern __typeof__(name) proved_##name; \
    CHECKED(name, LIST, BYTES, NO_ROOMS, parameters, passed, proved_##name passed, proved_##name, 0, proved_##name)

/* A function that works in rooms: ROOMS has them, their types and how many items each has, `call` what the proved function is
 * passed. All rooms of a call are one block, in which each begins at a multiple of 8; short texts need none. Where it answers
 * that they are too small, and ROOMS has larger ones for the next turn, it is called again. Where there is no memory it is
 * called with none, since other statuses may come first. */
#ifdef WKT_NO_ROOMS
#define FUNCTION_IN_ROOMS(name, LIST, ROOMS, parameters, passed, proved_parameters, call) \
    FUNCTION(name, LIST, parameters, passed)
#define FUNCTION_IN_DIALECTS(name, LIST, ROOMS, ROOMLESS, parameters, passed, proved_parameters, call, ITS_ROOMS, \
                             its_parameters, its_call) \
    extern __typeof__(name) proved_##name, proved_##name##_in; \
    CHECKED(name, LIST, BYTES, NO_ROOMS, parameters, passed, proved_##name passed, proved_##name, ASKS_DIALECTS, \
            proved_##name##_in)
#else
#define ROOMY(name, ROOMS, parameters, proved_parameters, call) \
    extern wkt_status proved_##name proved_parameters; \
    static __attribute__((noinline)) wkt_status roomy_##name parameters { \
        size_t before = SIZE_MAX; \
        for (unsigned turn = 0;; turn++) { \
            ROOMS(SIZE_OF) \
            const size_t sum = (size_t)0 ROOMS(SUM_OF); \
            wkt_status status = WKT_NO_MEMORY; \
            if (sum == before) return status; \
            uint8_t *block = sum ? malloc(sum) : NULL, *at = block ? block : (uint8_t *)&nothing; \
            if (!block) { \
                ROOMS(NO_ITEM) \
            } \
            ROOMS(PLACED) \
            (void)at; \
            status = proved_##name call; \
            free(block); \
            if (status != WKT_NO_MEMORY || (sum && !block)) return status; \
            before = sum; \
        } \
    }
#define WITH_NONE(name, passed, call) proved_##name call
#define SIZE_WITH_NONE BYTES
#define SHORT(name, passed, call) proved_##name##_short passed
/* A text that needs no room isn't too long. */
#define SIZE_SHORT NONE
#define FUNCTION_IN_ROOMS(name, LIST, ROOMS, parameters, passed, proved_parameters, call) \
    ROOMY(name, ROOMS, parameters, proved_parameters, call) \
    CHECKED(name, LIST, BYTES, ROOMS, parameters, passed, proved_##name call, roomy_##name, 0, roomy_##name)
#define FUNCTION_IN_DIALECTS(name, LIST, ROOMS, ROOMLESS, parameters, passed, proved_parameters, call, ITS_ROOMS, \
                             its_parameters, its_call) \
    ROOMY(name, ROOMS, parameters, proved_parameters, call) \
    ROOMY(name##_in, ITS_ROOMS, parameters, its_parameters, its_call) \
    CHECKED(name, LIST, SIZE_##ROOMLESS, ROOMS, parameters, passed, ROOMLESS(name, passed, call), roomy_##name, \
            ASKS_DIALECTS, roomy_##name##_in)
#endif

/* For short texts, where rooms that are none would cost a twentieth of a call. */
extern __typeof__(wkt_canonical) proved_wkt_canonical_short;
extern __typeof__(wkt_same) proved_wkt_same_short;
extern __typeof__(wkt_arrays) proved_wkt_arrays_short;

#include "functions.h"
