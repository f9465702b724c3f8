/* What the proved programs call beside the C library, where the kit's rattle-link doesn't link them: their arguments, and
 * errno. Nothing here is proved. Linked with -Wl,--wrap=__libc_start_main. */
#define _GNU_SOURCE
#include <errno.h>
#include <signal.h>
#include <stddef.h>
#include <stdint.h>
#include <string.h>
#include <sys/syscall.h>
#include <unistd.h>

static size_t count;
static char **words;

/* The C library's start. Of glibc it is the oldest: the newest is of 2.34, and so would keep a program that was linked there
 * from older systems. Those run no constructors then; there are none. */
typedef int program(int argc, char **argv, char **environment);
typedef void step(void);
int start(program *main, int argc, char **argv, step *init, step *fini, step *end, void *stack);
#if defined __GLIBC__ && defined __x86_64__ && !defined WKT_STATIC
__asm__(".symver start, __libc_start_main@GLIBC_2.2.5");
#elif defined __GLIBC__ && defined __aarch64__ && !defined WKT_STATIC
__asm__(".symver start, __libc_start_main@GLIBC_2.17");
#else
#define start __real___libc_start_main
int start(program *main, int argc, char **argv, step *init, step *fini, step *end, void *stack);
#endif
#ifdef WKT_BUILD
/* A build between releases says which it is: the proved program knows its number alone. What can't be written it says itself. */
static program *proved;
static int begun(int argc, char **argv, char **environment) {
    static const char said[] = "wkt " WKT_BUILD "\n";
    int asked = argc > 1 && (!strcmp(argv[1], "--version") || !strcmp(argv[1], "-V"));
    if (asked && write(1, said, sizeof said - 1) == (ssize_t)sizeof said - 1) return 0;
    return proved(argc, argv, environment);
}
#define BEGUN(main) (proved = (main), begun)
#else
#define BEGUN(main) (main)
#endif
int __wrap___libc_start_main(program *main, int argc, char **argv, step *init, step *fini, step *end, void *stack);
int __wrap___libc_start_main(program *main, int argc, char **argv, step *init, step *fini, step *end, void *stack) {
    count = (size_t)argc;
    words = argv;
    return start(BEGUN(main), argc, argv, init, fini, end, stack);
}

/* Argument i, put at the start of buf: its length; -1 where there is none, and -2 where it doesn't fit. */
ptrdiff_t rattle_arg(size_t i, uint8_t *buf, size_t room) {
    if (i >= count || !words[i]) return -1;
    size_t length = strlen(words[i]);
    memcpy(buf, words[i], length < room ? length : room);
    return length > room ? -2 : (ptrdiff_t)length;
}
size_t rattle_arg_count(void) { return count; }
int32_t rattle_errno(void) { return errno; }
void rattle_set_errno(int32_t error) { errno = error; }

#ifdef __x86_64__
/* What the processor has: main asks for leaf 1 (0) and leaf 0x80000001 (2), as glibc's <sys/platform/x86.h> numbers them,
 * which only glibc 2.33 and later have. */
#include <cpuid.h>
typedef struct {
    unsigned cpuid[4], active[4];
} leaf;
const leaf *__x86_get_cpuid_feature_leaf(unsigned number) {
    static leaf found[3];
    leaf *it = &found[number < 2 ? number : 2];
    if (number == 0 || number == 2) {
        unsigned *r = it->active;
        __get_cpuid(number ? 0x80000001 : 1, &r[0], &r[1], &r[2], &r[3]);
    }
    return it;
}
#endif

/* Of what the programs call, these two came to glibc after 2.17. */
int getentropy(void *to, size_t size) { return syscall(SYS_getrandom, to, size, 0) == (long)size ? 0 : -1; }
int statx(int dir, const char *path, int flags, unsigned mask, void *to);
int statx(int dir, const char *path, int flags, unsigned mask, void *to) {
    return (int)syscall(SYS_statx, dir, path, flags, mask, to);
}

#ifndef __GLIBC__
/* What glibc has and another C library may lack. */
void (*__sysv_signal(int number, void (*to)(int)))(int) { return signal(number, to); }
ssize_t __write(int fd, const void *from, size_t size) { return write(fd, from, size); }
#endif
