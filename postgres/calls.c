/* Long calls of the library, which a cancel ends.
 *
 * The library looks for no interrupt. So while it works on a long text a timer ticks, and the first tick after a cancel leaves
 * the call by siglongjmp. The library keeps nothing from call to call, and what it holds during one is memory: this file has a
 * list of that, since the Makefile has the linker take malloc, calloc, realloc and free from here. No call is left amid one of
 * these, nor amid a handler of the server's. In portable C alone the library takes memory by calloc, and keeps some from call
 * to call: then no call is left, and a cancel is served behind it. */
#include "wkt_pg.h"

#include <setjmp.h>
#include <signal.h>
#include <stdlib.h>
#include <sys/time.h>
#include <ucontext.h>

#include "miscadmin.h"
#include "port/atomics.h"

#define TICK 50000 /* microseconds of the processor */

static sigjmp_buf call_left;
static volatile sig_atomic_t may_leave; /* the library's own code runs, in a long call */
static bool was_left;                   /* the call is made again */
static bool keeps_memory;               /* the library does, from call to call */
static struct sigaction handler_before;
static struct itimerval timer_before;
static sigset_t mask_before;

static void set_may_leave(sig_atomic_t may) {
    pg_compiler_barrier();
    may_leave = may;
    pg_compiler_barrier();
}

/* Whether an interrupt is to be served now. One that may be no error, as a check of the connection, is served once in a call. */
static bool is_interrupted(void) {
    if (InterruptHoldoffCount != 0 || CritSectionCount != 0) return false;
    return ProcDiePending || (QueryCancelPending && QueryCancelHoldoffCount == 0) || (InterruptPending && !was_left);
}

/* While a handler runs its signal is blocked, and the call may not be left. The kernel's mask has a bit for each signal. */
static void tick(int number, siginfo_t *info, void *context) {
    const sigset_t *mask = &((const ucontext_t *)context)->uc_sigmask;
    (void)number, (void)info;
    if (!may_leave || keeps_memory || memcmp(mask, &mask_before, (_NSIG - 1) / 8) != 0 || !is_interrupted()) return;
    may_leave = 0;
    siglongjmp(call_left, 1);
}

static void start_timer(void) {
    const struct itimerval timer = {{0, TICK}, {0, TICK}};
    struct sigaction handler = {.sa_sigaction = tick, .sa_flags = SA_SIGINFO | SA_RESTART};
    sigemptyset(&handler.sa_mask);
    sigprocmask(SIG_SETMASK, NULL, &mask_before);
    sigaction(SIGPROF, &handler, &handler_before);
    setitimer(ITIMER_PROF, &timer, &timer_before);
}

static void stop_timer(void) {
    setitimer(ITIMER_PROF, &timer_before, NULL);
    sigaction(SIGPROF, &handler_before, NULL);
}

/* A block of the library's memory, in a ring. Behind it memory is as aligned as malloc's. */
typedef union Block {
    struct {
        union Block *before, *after;
    };
    max_align_t alignment;
} Block;

static Block blocks = {{&blocks, &blocks}};

extern void *__real_malloc(size_t size);
extern void *__real_calloc(size_t count, size_t size);
extern void *__real_realloc(void *at, size_t size);
extern void __real_free(void *at);
extern void *__wrap_malloc(size_t size);
extern void *__wrap_calloc(size_t count, size_t size);
extern void *__wrap_realloc(void *at, size_t size);
extern void __wrap_free(void *at);

/* Puts a block into the ring: a new one before its first, one that was moved where it was. */
static void *put(Block *block, bool is_new) {
    if (block == NULL) return NULL;
    if (is_new) *block = (Block){{&blocks, blocks.after}};
    block->before->after = block->after->before = block;
    return block + 1;
}

void *__wrap_malloc(size_t size) {
    sig_atomic_t might = may_leave;
    void *at;
    set_may_leave(0);
    at = size > PTRDIFF_MAX ? NULL : put(__real_malloc(sizeof(Block) + size), true);
    set_may_leave(might);
    return at;
}

void *__wrap_calloc(size_t count, size_t size) {
    sig_atomic_t might = may_leave;
    void *at = NULL;
    keeps_memory = true;
    set_may_leave(0);
    if (size == 0 || count <= PTRDIFF_MAX / size) at = put(__real_calloc(1, sizeof(Block) + count * size), true);
    set_may_leave(might);
    return at;
}

void *__wrap_realloc(void *old, size_t size) {
    sig_atomic_t might = may_leave;
    void *at;
    if (old == NULL) return __wrap_malloc(size);
    set_may_leave(0);
    at = size > PTRDIFF_MAX ? NULL : put(__real_realloc((Block *)old - 1, sizeof(Block) + size), false);
    set_may_leave(might);
    return at;
}

void __wrap_free(void *at) {
    sig_atomic_t might = may_leave;
    Block *block;
    if (at == NULL) return;
    block = (Block *)at - 1;
    set_may_leave(0);
    block->before->after = block->after;
    block->after->before = block->before;
    __real_free(block);
    set_may_leave(might);
}

/* Serves what the call was left for. If that is no error, the call is made again. */
static void serve_interrupt(void) {
    stop_timer();
    while (blocks.after != &blocks) __wrap_free(blocks.after + 1);
    CHECK_FOR_INTERRUPTS();
    was_left = true;
    start_timer();
}

wkt_status long_call(wkt_status (*function)(Call *), Call *call) {
    wkt_status status;
    was_left = false;
    start_timer();
    while (sigsetjmp(call_left, 1) != 0) serve_interrupt();
    set_may_leave(1);
    status = function(call);
    set_may_leave(0);
    stop_timer();
    CHECK_FOR_INTERRUPTS();
    return status;
}
