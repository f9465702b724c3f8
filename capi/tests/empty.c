/* What is passed on in place of NULL where a size is 0. Three proved functions are played here, by C that copies what it is
 * given: under UBSan a copy from or to NULL is an error, of 0 bytes too. Linked without the library. */
#include "../pointers.c"
#include <string.h>

int wkt_supported(void) { return 1; }

static int calls;
static char room[8];

/* Reads what is to be read, and writes it where something is to be written. */
static void look(const void *at, void *to, size_t bytes) {
    calls++;
    memcpy(room, at, bytes);
    memcpy(to, room, bytes);
}

wkt_status proved_wkt_canonical(const uint8_t *text, size_t text_len, uint32_t places, uint8_t *its_room,
                                size_t its_room_len, uint8_t *out, size_t out_len, size_t *needed, size_t *end) {
    (void)places, (void)needed, (void)end;
    look(text, out, text_len + out_len);
    look(text, its_room, its_room_len);
    return WKT_OK;
}

wkt_status proved_wkt_arrays(const uint8_t *text, size_t text_len, uint32_t places, int64_t *numbers_room,
                             size_t numbers_room_len, size_t *words_room, size_t words_room_len, WktSizes *sizes,
                             int64_t *numbers, size_t numbers_len, size_t *rings, size_t rings_len, size_t *polygons,
                             size_t polygons_len) {
    (void)places, (void)sizes;
    look(text, numbers, text_len + numbers_len);
    look(rings, polygons, rings_len + polygons_len);
    look(numbers_room, words_room, numbers_room_len + words_room_len);
    return WKT_OK;
}

wkt_status proved_wkt_column_canonical(const uint8_t *texts, size_t texts_len, const int64_t *offsets,
                                       size_t offsets_len, const uint8_t *valid, size_t valid_len, uint32_t places,
                                       uint8_t *its_room, size_t its_room_len, size_t *ends_room, size_t ends_room_len,
                                       uint32_t *codes_room, size_t codes_room_len, uint8_t *out, size_t out_len,
                                       int64_t *out_offsets, size_t out_offsets_len, wkt_status *statuses,
                                       size_t statuses_len, size_t *needed) {
    (void)places, (void)needed, (void)its_room, (void)ends_room;
    look(texts, out, texts_len + out_len);
    look(offsets, out_offsets, offsets_len + out_offsets_len);
    look(valid, statuses, valid_len + statuses_len);
    look(valid, codes_room, codes_room_len);
    return its_room_len == 130 && ends_room_len == 1 ? WKT_OK : WKT_TOO_SMALL;
}

int main(void) {
    size_t needed, end;
    WktSizes sizes;
    int wrong = wkt_canonical(NULL, 0, 6, NULL, 0, &needed, &end) != WKT_OK;
    wrong |= wkt_arrays(NULL, 0, 6, &sizes, NULL, 0, NULL, 0, NULL, 0) != WKT_OK;
    wrong |= wkt_column_canonical(NULL, 0, NULL, 0, NULL, 0, 6, NULL, 0, NULL, 0, NULL, 0, &needed) != WKT_OK;
    return wrong || calls != 9;
}
