/* What stands around the proved code: its memory, its version, the words of statuses, and a look at the processor. Nothing
 * here is proved. */
#include "../include/wkt.h"
#include <stdlib.h>

#define PUBLIC __attribute__((visibility("default")))

/* An address, and whether there is one, in two registers. */
typedef struct {
    uint64_t given;
    void *at;
} answer;

static char nothing;

static answer give(void *at) {
    answer a = {at != 0, at ? at : &nothing};
    return a;
}

answer rattle_alloc(size_t size, size_t align) { return give(malloc(size ? size : align)); }

answer rattle_realloc(void *at, size_t old, size_t size, size_t align) {
    (void)old;
    return give(realloc(at, size ? size : align));
}

void rattle_dealloc(void *at, size_t size, size_t align) {
    (void)size;
    (void)align;
    free(at);
}

/* Between releases dist/Makefile says the commit too. */
#ifndef WKT_BUILD
#define WKT_BUILD WKT_VERSION
#endif
PUBLIC const char *wkt_version(void) { return WKT_BUILD; }

PUBLIC const char *wkt_message(wkt_status status) {
    static const char *const messages[] = WKT_MESSAGES;
    return status < sizeof messages / sizeof *messages ? messages[status] : "";
}

/* The proved code is compiled for x86-64-v2, and on aarch64 for any. A test gives another answer here. */
#if defined(__x86_64__) && !defined(WKT_HAS_CPU)
#define WKT_HAS_CPU \
    (__builtin_cpu_init(), \
     __builtin_cpu_supports("ssse3") && __builtin_cpu_supports("sse4.2") && __builtin_cpu_supports("popcnt"))
#elif !defined(WKT_HAS_CPU)
#define WKT_HAS_CPU 1
#endif

PUBLIC int wkt_supported(void) { return WKT_HAS_CPU ? 1 : 0; }
