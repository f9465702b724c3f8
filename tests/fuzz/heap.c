/* Counts the allocations that are held, and fails the one that is asked for. Linked with
 * --wrap, so that the calls of the Rattle code come here, and from here go to the toolchain's functions. capi/pointers.c calls
 * heap_malloc and heap_free. */
#include <stdint.h>
#include <stddef.h>
#include <stdlib.h>
typedef struct {
    uint64_t ok;
    void *at;
} heap_answer;
heap_answer __real_rattle_alloc(size_t size, size_t align);
heap_answer __real_rattle_realloc(void *p, size_t old, size_t size, size_t align);
void __real_rattle_dealloc(void *p, size_t size, size_t align);
int64_t heap_held = 0, heap_calls = 0, heap_fail_at = -1;
static int fails(void) { return heap_calls++ == heap_fail_at; }
heap_answer __wrap_rattle_alloc(size_t size, size_t align) {
    heap_answer none = {0, 0};
    if (fails()) return none;
    heap_answer a = __real_rattle_alloc(size, align);
    if (a.ok) heap_held++;
    return a;
}
heap_answer __wrap_rattle_realloc(void *p, size_t old, size_t size, size_t align) {
    heap_answer none = {0, 0};
    if (fails()) return none;
    return __real_rattle_realloc(p, old, size, align);
}
void __wrap_rattle_dealloc(void *p, size_t size, size_t align) {
    heap_held--;
    __real_rattle_dealloc(p, size, align);
}
void *heap_malloc(size_t size) {
    void *at = fails() ? NULL : malloc(size);
    if (at) heap_held++;
    return at;
}
void heap_free(void *at) {
    if (at) heap_held--;
    free(at);
}
int wkt_supported(void) { return 1; }
