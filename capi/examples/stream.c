/* Copies standard input to standard output, each line answered as wkt_lines answers it, once it is there:
 * gcc -O2 -Icapi/out capi/examples/stream.c capi/out/libwkt.a -o stream
 * Its buffers are as large as the longest line needs. */
#include "wkt.h"
#include <stdio.h>
#include <stdlib.h>
#include <string.h>
#include <unistd.h>
#ifdef _WIN32
#include <fcntl.h>
#include <io.h>
#endif

typedef struct {
    uint8_t *at;
    size_t size;
} buffer;

static int has_grown(buffer *it, size_t size) {
    uint8_t *at = (uint8_t *)realloc(it->at, size);
    if (!at) return 0;
    it->at = at;
    it->size = size;
    return 1;
}

/* Writes the answers to all whole lines of what is held: whether that is done, and how many bytes they are. */
static int write_answers(const uint8_t *held, size_t len, uint32_t last, buffer *out, size_t *done) {
    size_t taken, written;
    for (*done = 0;;) {
        wkt_status s = wkt_lines_some(held + *done, len - *done, 18, last, out->at, out->size, &taken, &written);
        if (s == WKT_TOO_SMALL) {
            /* As long as the answer to a line can be. */
            const uint8_t *end = (const uint8_t *)memchr(held + *done, '\n', len - *done);
            size_t most = 2 * (end ? (size_t)(end - held) - *done : len - *done) + 8;
            if (!has_grown(out, most > 2 * out->size ? most : 2 * out->size)) return 0;
            continue;
        }
        if (s != WKT_OK || fwrite(out->at, 1, written, stdout) != written) return 0;
        if (taken == 0) return fflush(stdout) == 0;
        *done += taken;
    }
}

int main(void) {
    buffer in = {NULL, 0}, out = {NULL, 0};
    size_t held = 0, done = 0;
#ifdef _WIN32
    /* Else line ends are changed, and a byte of 26 ends the input. */
    if (_setmode(0, _O_BINARY) < 0 || _setmode(1, _O_BINARY) < 0) return 1;
#endif
    if (!has_grown(&in, 1 << 17) || !has_grown(&out, 1 << 17)) return 1;
    for (;;) {
        ssize_t came = read(0, in.at + held, in.size - held);
        if (came < 0) return 1;
        held += (size_t)came;
        /* A line that comes in pieces is passed on once, when its line feed is there, and not with each piece. */
        if (came == 0 || memchr(in.at + held - came, '\n', (size_t)came)) {
            if (!write_answers(in.at, held, came == 0, &out, &done)) return 1;
            held -= done;
            memmove(in.at, in.at + done, held);
        }
        if (came == 0) break;
        if (held == in.size && !has_grown(&in, 2 * in.size)) return 1;
    }
    free(in.at);
    free(out.at);
    return 0;
}
