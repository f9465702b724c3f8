/* The program wktline by one call of wkt_lines: lines < input > output. */
#include "wkt.h"
#include <stdio.h>
#include <stdlib.h>

int main(void) {
    size_t room = 1 << 16, n = 0, k;
    uint8_t *in = (uint8_t *)malloc(room);
    while ((k = fread(in + n, 1, room - n, stdin)) > 0)
        if ((n += k) == room) in = (uint8_t *)realloc(in, room *= 2);
    size_t cap = n + n / 4 + 64, needed;
    uint8_t *out = (uint8_t *)malloc(cap);
    wkt_status s = wkt_lines(in, n, 18, out, cap, &needed);
    if (s == WKT_TOO_SMALL) {
        out = (uint8_t *)realloc(out, cap = needed);
        s = wkt_lines(in, n, 18, out, cap, &needed);
    }
    if (s != WKT_OK || ferror(stdin)) return 1;
    return fwrite(out, 1, needed, stdout) != needed || fflush(stdout) != 0;
}
