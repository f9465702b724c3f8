/* A later library, as docs/ABI.md allows one: it has an expectation, a hint, a message and statuses that today's hasn't, of
 * texts that begin with `!`, `?` or `~`. rust/test.sh puts it into today's, whose functions are called now_.. there. */
#include "wkt.h"

extern __typeof__(wkt_canonical) now_canonical;
extern __typeof__(wkt_explain) now_explain;
extern __typeof__(wkt_infer) now_infer;
extern __typeof__(wkt_message) now_message;

wkt_status wkt_canonical(const uint8_t *text, size_t text_len, uint32_t places, uint8_t *out, size_t out_len,
                         size_t *needed, size_t *end) {
    if (text_len && *text == '?') return 34;
    if (text_len && *text == '~') return 35;
    return now_canonical(text, text_len, places, out, out_len, needed, end);
}

wkt_status wkt_explain(const uint8_t *text, size_t text_len, uint32_t places, uint32_t *message, size_t *start,
                       size_t *stop, uint32_t *expected) {
    wkt_status status = now_explain(text, text_len, places, message, start, stop, expected);
    if (text_len && *text == '!') *message = 15, *expected = 11;
    return status;
}

wkt_status wkt_hint(const uint8_t *text, size_t text_len, uint32_t places, uint32_t *hint) {
    (void)text, (void)text_len, (void)places;
    *hint = 99;
    return WKT_OK;
}

wkt_status wkt_infer(const uint8_t *text, size_t text_len, uint32_t *kind, uint32_t *dimension) {
    if (text_len && *text == '?') return 34;
    if (!text_len || *text != '!') return now_infer(text, text_len, kind, dimension);
    *kind = 7;
    *dimension = 0;
    return WKT_OK;
}

const char *wkt_message(wkt_status status) {
    return status == 15 ? "A later message" : status == 34 ? "A later status" : now_message(status);
}
