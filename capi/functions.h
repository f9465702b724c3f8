/* The functions of wkt.h, each once, for pointers.c and for dist/c/wkt_portable.c. A list has what a function is passed, in the
 * order of its parameters, without its plain numbers: GIVEN(buffer, width), ANSWER(buffer, width, count, most), of which so many
 * items are the answer, which never has more than `most`, RESULT(name, width), and RESULTS(name), a struct. Widths are those of
 * an item in the proved code, in bytes.
 *
 * FUNCTION(name, LIST, parameters, passed). FUNCTION_IN_ROOMS(name, LIST, ROOMS, parameters, passed, proved, call): the proved
 * function has the parameters `proved`, rooms to work in beside those of wkt.h. ROOM(name, type, count): they are large enough,
 * and none where short texts need none; or the function is called again with those of the next `turn`. A size may be anything
 * that a caller says: more than any memory holds is counted as so many, so that no sum wraps.
 *
 * FUNCTION_IN_DIALECTS(name, LIST, ROOMS, ROOMLESS, parameters, passed, proved, call, ITS_ROOMS, its_proved, its_call): with
 * dialects added to `places`, which are more than MOST_PLAIN then, the proved function is name_in, which has the last three.
 * Where no room is needed, and ROOMLESS is SHORT, it may be name_short, which has the parameters of wkt.h. */
#include "../include/wkt.h"

/* All that can be asked for without a dialect is less. */
#define MOST_PLAIN 511

#define NO_ROOMS(ROOM)

static inline uint64_t least_of(uint64_t one, uint64_t other) { return one < other ? one : other; }
static inline uint64_t counted(uint64_t size) { return least_of(size, (uint64_t)1 << 48); }

/* A canonical text, and what may stand behind it while it is written. */
static inline uint64_t text_room(uint64_t size) { return 2 * counted(size) + 65; }
/* The text that a text in dialects is read as has no more than twelve bytes for one of that: 1e99 is a digit, forty zeros, a
 * point and a space. At the first turn it isn't written, and a text that begins with a geometry as it stands is answered. */
static inline uint64_t read_size(size_t size, unsigned turn) { return turn ? 12 * counted(size) + 1 : counted(size); }
static inline uint64_t read_room_of(size_t size, unsigned turn) { return turn ? read_size(size, turn) : 0; }
/* The answers to lines: mostly not longer than these, and at most eight bytes for each of theirs. */
static inline uint64_t lines_room(size_t size, unsigned turn) {
    return least_of((counted(size) + counted(size) / 8 + 4096) << turn, 8 * counted(size) + 65);
}
/* The text of arrays: each number with all its digits. */
static inline uint64_t arrays_room(size_t numbers, uint32_t places, size_t rings, size_t polygons) {
    return counted(numbers) * (least_of(places, 36) + 23) + 7 * (counted(rings) + counted(polygons)) + 74;
}

#define IS_SHORT(size) ((size) <= 200)
/* clang-format would indent each line of these lists further. */
/* clang-format off */
#define CANONICAL(GIVEN, ANSWER, RESULT, RESULTS) \
    GIVEN(text, 1) ANSWER(out, 1, *needed, text_room(text_len)) RESULT(needed, 8) RESULT(end, 8)
#define SAME(GIVEN, ANSWER, RESULT, RESULTS) GIVEN(one, 1) GIVEN(other, 1) RESULT(same, 4)
#define SAME_ENDS(GIVEN, ANSWER, RESULT, RESULTS) \
    GIVEN(one, 1) GIVEN(other, 1) RESULT(same, 4) RESULT(end, 8) RESULT(other_end, 8)
#define EXPLAIN(GIVEN, ANSWER, RESULT, RESULTS) \
    GIVEN(text, 1) RESULT(message, 4) RESULT(start, 8) RESULT(stop, 8) RESULT(expected, 4)
#define HINT(GIVEN, ANSWER, RESULT, RESULTS) GIVEN(text, 1) RESULT(hint, 4)
#define SRID(GIVEN, ANSWER, RESULT, RESULTS) GIVEN(text, 1) RESULT(srid, 4) RESULT(end, 8)
#define INFER(GIVEN, ANSWER, RESULT, RESULTS) GIVEN(text, 1) RESULT(kind, 4) RESULT(dimension, 4)
#define LINES(GIVEN, ANSWER, RESULT, RESULTS) \
    GIVEN(input, 1) ANSWER(out, 1, *needed, 8 * counted(input_len)) RESULT(needed, 8)
#define LINES_SOME(GIVEN, ANSWER, RESULT, RESULTS) \
    GIVEN(input, 1) ANSWER(out, 1, *written, 8 * counted(input_len) + 65) RESULT(taken, 8) RESULT(written, 8)
#define COLUMN_CANONICAL(GIVEN, ANSWER, RESULT, RESULTS) \
    GIVEN(texts, 1) GIVEN(offsets, 8) GIVEN(valid, 1) \
    ANSWER(out, 1, *needed, text_room(texts_len) + counted(statuses_len)) \
    ANSWER(out_offsets, 8, out_offsets_len, out_offsets_len) ANSWER(statuses, 4, statuses_len, statuses_len) \
    RESULT(needed, 8)
#define ARRAYS(GIVEN, ANSWER, RESULT, RESULTS) GIVEN(text, 1) RESULTS(sizes) \
    ANSWER(numbers, 8, sizes->numbers, counted(text_len) / 2 + 2) \
    ANSWER(rings, 8, sizes->rings, counted(text_len) / 4 + 2) \
    ANSWER(polygons, 8, sizes->polygons, counted(text_len) / 6 + 2)
#define READ_EVENTS(GIVEN, ANSWER, RESULT, RESULTS) GIVEN(text, 1) \
    ANSWER(events, 8, *event_count, counted(text_len) / 2) ANSWER(numbers, 16, *number_count, counted(text_len) / 2) \
    RESULT(event_count, 8) RESULT(number_count, 8) RESULT(end, 8)
#define COLUMN_ARRAYS(GIVEN, ANSWER, RESULT, RESULTS) GIVEN(texts, 1) GIVEN(offsets, 8) GIVEN(valid, 1) RESULTS(sizes) \
    ANSWER(kinds, 4, kinds_len, kinds_len) ANSWER(dimensions, 4, dimensions_len, dimensions_len) \
    ANSWER(numbers, 8, sizes->numbers, counted(texts_len) / 2 + 2 * counted(statuses_len)) \
    ANSWER(number_offsets, 8, number_offsets_len, number_offsets_len) \
    ANSWER(rings, 8, sizes->rings, counted(texts_len) / 4 + 2 * counted(statuses_len)) \
    ANSWER(ring_offsets, 8, ring_offsets_len, ring_offsets_len) \
    ANSWER(polygons, 8, sizes->polygons, counted(texts_len) / 6 + 2 * counted(statuses_len)) \
    ANSWER(polygon_offsets, 8, polygon_offsets_len, polygon_offsets_len) ANSWER(statuses, 4, statuses_len, statuses_len)
#define FROM_ARRAYS(GIVEN, ANSWER, RESULT, RESULTS) GIVEN(numbers, 8) GIVEN(rings, 8) GIVEN(polygons, 8) \
    ANSWER(out, 1, *needed, arrays_room(numbers_len, places, rings_len, polygons_len)) RESULT(needed, 8)
#define COLUMN_FROM_ARRAYS(GIVEN, ANSWER, RESULT, RESULTS) GIVEN(kinds, 4) GIVEN(dimensions, 4) GIVEN(numbers, 8) \
    GIVEN(number_offsets, 8) GIVEN(rings, 8) GIVEN(ring_offsets, 8) GIVEN(polygons, 8) GIVEN(polygon_offsets, 8) \
    GIVEN(valid, 1) \
    ANSWER(out, 1, *needed, arrays_room(numbers_len, places, rings_len, polygons_len) + 74 * counted(statuses_len)) \
    ANSWER(out_offsets, 8, out_offsets_len, out_offsets_len) ANSWER(statuses, 4, statuses_len, statuses_len) \
    RESULT(needed, 8)

#define CANONICAL_ROOMS(ROOM) ROOM(room, uint8_t, IS_SHORT(text_len) ? 0 : text_room(text_len))
#define SAME_ROOMS(ROOM) \
    ROOM(room, uint8_t, IS_SHORT(one_len) && IS_SHORT(other_len) ? 0 : text_room(one_len)) \
    ROOM(other_room, uint8_t, IS_SHORT(one_len) && IS_SHORT(other_len) ? 0 : text_room(other_len))
#define CANONICAL_IN_ROOMS(ROOM) \
    ROOM(read_room, uint8_t, read_room_of(text_len, turn)) \
    ROOM(room, uint8_t, !turn && IS_SHORT(text_len) ? 0 : text_room(read_size(text_len, turn)))
#define SAME_IN_ROOMS(ROOM) \
    ROOM(read_room, uint8_t, read_room_of(one_len, turn)) \
    ROOM(other_read_room, uint8_t, read_room_of(other_len, turn)) \
    ROOM(room, uint8_t, !turn && IS_SHORT(one_len) && IS_SHORT(other_len) ? 0 : text_room(read_size(one_len, turn))) \
    ROOM(other_room, uint8_t, \
         !turn && IS_SHORT(one_len) && IS_SHORT(other_len) ? 0 : text_room(read_size(other_len, turn)))
#define READ_ROOMS(ROOM) ROOM(read_room, uint8_t, read_room_of(text_len, turn))
#define ARRAYS_IN_ROOMS(ROOM) \
    ROOM(read_room, uint8_t, read_room_of(text_len, turn)) \
    ROOM(numbers_room, int64_t, !turn && text_len <= 64 ? 0 : read_size(text_len, turn) / 2 + 2) \
    ROOM(words_room, size_t, \
         !turn && text_len <= 64 ? 0 : read_size(text_len, turn) / 4 + read_size(text_len, turn) / 6 + 4)
#define LINES_ROOMS(ROOM) ROOM(room, uint8_t, lines_room(input_len, turn))
/* A line is seldom longer. */
#define LINES_SOME_ROOMS(ROOM) ROOM(room, uint8_t, least_of(text_room(input_len), turn ? UINT64_MAX : 65536))
#define ARRAYS_ROOMS(ROOM) \
    ROOM(numbers_room, int64_t, text_len <= 64 ? 0 : counted(text_len) / 2 + 2) \
    ROOM(words_room, size_t, text_len <= 64 ? 0 : counted(text_len) / 4 + counted(text_len) / 6 + 4)
#define FROM_ARRAYS_ROOMS(ROOM) ROOM(room, uint8_t, arrays_room(numbers_len, places, rings_len, polygons_len))
#define COLUMN_CANONICAL_ROOMS(ROOM) \
    ROOM(room, uint8_t, 2 * (text_room(texts_len) + counted(statuses_len))) \
    ROOM(ends_room, size_t, counted(statuses_len) + 1) \
    ROOM(codes_room, uint32_t, counted(statuses_len))
#define COLUMN_ARRAYS_ROOMS(ROOM) \
    ROOM(numbers_room, int64_t, counted(texts_len) + 2 * counted(statuses_len) + 4) \
    ROOM(words_room, size_t, counted(texts_len) / 2 + counted(texts_len) / 3 + 7 * counted(statuses_len) + 9) \
    ROOM(codes_room, uint32_t, 3 * counted(statuses_len))
#define COLUMN_FROM_ARRAYS_ROOMS(ROOM) \
    ROOM(room, uint8_t, 2 * (arrays_room(numbers_len, places, rings_len, polygons_len) + 74 * counted(statuses_len))) \
    ROOM(ends_room, size_t, counted(statuses_len) + 1) \
    ROOM(codes_room, uint32_t, counted(statuses_len))
/* clang-format on */

FUNCTION_IN_DIALECTS(wkt_canonical, CANONICAL, CANONICAL_ROOMS, SHORT,
                     (const uint8_t *text, size_t text_len, uint32_t places, uint8_t *out, size_t out_len,
                      size_t *needed, size_t *end),
                     (text, text_len, places, out, out_len, needed, end),
                     (const uint8_t *text, size_t text_len, uint32_t places, uint8_t *room, size_t room_len,
                      uint8_t *out, size_t out_len, size_t *needed, size_t *end),
                     (text, text_len, places, room, room_len, out, out_len, needed, end), CANONICAL_IN_ROOMS,
                     (const uint8_t *text, size_t text_len, uint32_t places, uint8_t *read_room, size_t read_room_len,
                      uint8_t *room, size_t room_len, uint8_t *out, size_t out_len, size_t *needed, size_t *end),
                     (text, text_len, places, read_room, read_room_len, room, room_len, out, out_len, needed, end))

FUNCTION_IN_DIALECTS(wkt_same, SAME, SAME_ROOMS, SHORT,
                     (const uint8_t *one, size_t one_len, const uint8_t *other, size_t other_len, uint32_t places,
                      uint32_t *same),
                     (one, one_len, other, other_len, places, same),
                     (const uint8_t *one, size_t one_len, const uint8_t *other, size_t other_len, uint32_t places,
                      uint8_t *room, size_t room_len, uint8_t *other_room, size_t other_room_len, uint32_t *same),
                     (one, one_len, other, other_len, places, room, room_len, other_room, other_room_len, same),
                     SAME_IN_ROOMS,
                     (const uint8_t *one, size_t one_len, const uint8_t *other, size_t other_len, uint32_t places,
                      uint8_t *read_room, size_t read_room_len, uint8_t *other_read_room, size_t other_read_room_len,
                      uint8_t *room, size_t room_len, uint8_t *other_room, size_t other_room_len, uint32_t *same),
                     (one, one_len, other, other_len, places, read_room, read_room_len, other_read_room,
                      other_read_room_len, room, room_len, other_room, other_room_len, same))

FUNCTION_IN_DIALECTS(
    wkt_same_ends, SAME_ENDS, SAME_ROOMS, WITH_NONE,
    (const uint8_t *one, size_t one_len, const uint8_t *other, size_t other_len, uint32_t places, uint32_t *same,
     size_t *end, size_t *other_end),
    (one, one_len, other, other_len, places, same, end, other_end),
    (const uint8_t *one, size_t one_len, const uint8_t *other, size_t other_len, uint32_t places, uint8_t *room,
     size_t room_len, uint8_t *other_room, size_t other_room_len, uint32_t *same, size_t *end, size_t *other_end),
    (one, one_len, other, other_len, places, room, room_len, other_room, other_room_len, same, end, other_end),
    SAME_IN_ROOMS,
    (const uint8_t *one, size_t one_len, const uint8_t *other, size_t other_len, uint32_t places, uint8_t *read_room,
     size_t read_room_len, uint8_t *other_read_room, size_t other_read_room_len, uint8_t *room, size_t room_len,
     uint8_t *other_room, size_t other_room_len, uint32_t *same, size_t *end, size_t *other_end),
    (one, one_len, other, other_len, places, read_room, read_room_len, other_read_room, other_read_room_len, room,
     room_len, other_room, other_room_len, same, end, other_end))

FUNCTION_IN_DIALECTS(wkt_explain, EXPLAIN, NO_ROOMS, WITH_NONE,
                     (const uint8_t *text, size_t text_len, uint32_t places, uint32_t *message, size_t *start,
                      size_t *stop, uint32_t *expected),
                     (text, text_len, places, message, start, stop, expected),
                     (const uint8_t *text, size_t text_len, uint32_t places, uint32_t *message, size_t *start,
                      size_t *stop, uint32_t *expected),
                     (text, text_len, places, message, start, stop, expected), READ_ROOMS,
                     (const uint8_t *text, size_t text_len, uint32_t places, uint8_t *read_room, size_t read_room_len,
                      uint32_t *message, size_t *start, size_t *stop, uint32_t *expected),
                     (text, text_len, places, read_room, read_room_len, message, start, stop, expected))

FUNCTION_IN_DIALECTS(
    wkt_hint, HINT, NO_ROOMS, WITH_NONE, (const uint8_t *text, size_t text_len, uint32_t places, uint32_t *hint),
    (text, text_len, places, hint), (const uint8_t *text, size_t text_len, uint32_t places, uint32_t *hint),
    (text, text_len, places, hint), READ_ROOMS,
    (const uint8_t *text, size_t text_len, uint32_t places, uint8_t *read_room, size_t read_room_len, uint32_t *hint),
    (text, text_len, places, read_room, read_room_len, hint))

FUNCTION(wkt_srid, SRID, (const uint8_t *text, size_t text_len, uint32_t *srid, size_t *end),
         (text, text_len, srid, end))

FUNCTION(wkt_infer, INFER, (const uint8_t *text, size_t text_len, uint32_t *kind, uint32_t *dimension),
         (text, text_len, kind, dimension))

FUNCTION_IN_ROOMS(wkt_lines, LINES, LINES_ROOMS,
                  (const uint8_t *input, size_t input_len, uint32_t places, uint8_t *out, size_t out_len,
                   size_t *needed),
                  (input, input_len, places, out, out_len, needed),
                  (const uint8_t *input, size_t input_len, uint32_t places, uint8_t *room, size_t room_len,
                   uint8_t *out, size_t out_len, size_t *needed),
                  (input, input_len, places, room, room_len, out, out_len, needed))

FUNCTION_IN_ROOMS(wkt_lines_some, LINES_SOME, LINES_SOME_ROOMS,
                  (const uint8_t *input, size_t input_len, uint32_t places, uint32_t last, uint8_t *out, size_t out_len,
                   size_t *taken, size_t *written),
                  (input, input_len, places, last, out, out_len, taken, written),
                  (const uint8_t *input, size_t input_len, uint32_t places, uint32_t last, uint8_t *room,
                   size_t room_len, uint8_t *out, size_t out_len, size_t *taken, size_t *written),
                  (input, input_len, places, last, room, room_len, out, out_len, taken, written))

FUNCTION_IN_ROOMS(
    wkt_column_canonical, COLUMN_CANONICAL, COLUMN_CANONICAL_ROOMS,
    (const uint8_t *texts, size_t texts_len, const int64_t *offsets, size_t offsets_len, const uint8_t *valid,
     size_t valid_len, uint32_t places, uint8_t *out, size_t out_len, int64_t *out_offsets, size_t out_offsets_len,
     wkt_status *statuses, size_t statuses_len, size_t *needed),
    (texts, texts_len, offsets, offsets_len, valid, valid_len, places, out, out_len, out_offsets, out_offsets_len,
     statuses, statuses_len, needed),
    (const uint8_t *texts, size_t texts_len, const int64_t *offsets, size_t offsets_len, const uint8_t *valid,
     size_t valid_len, uint32_t places, uint8_t *room, size_t room_len, size_t *ends_room, size_t ends_room_len,
     uint32_t *codes_room, size_t codes_room_len, uint8_t *out, size_t out_len, int64_t *out_offsets,
     size_t out_offsets_len, wkt_status *statuses, size_t statuses_len, size_t *needed),
    (texts, texts_len, offsets, offsets_len, valid, valid_len, places, room, room_len, ends_room, ends_room_len,
     codes_room, codes_room_len, out, out_len, out_offsets, out_offsets_len, statuses, statuses_len, needed))

FUNCTION_IN_DIALECTS(wkt_arrays, ARRAYS, ARRAYS_ROOMS, SHORT,
                     (const uint8_t *text, size_t text_len, uint32_t places, WktSizes *sizes, int64_t *numbers,
                      size_t numbers_len, size_t *rings, size_t rings_len, size_t *polygons, size_t polygons_len),
                     (text, text_len, places, sizes, numbers, numbers_len, rings, rings_len, polygons, polygons_len),
                     (const uint8_t *text, size_t text_len, uint32_t places, int64_t *numbers_room,
                      size_t numbers_room_len, size_t *words_room, size_t words_room_len, WktSizes *sizes,
                      int64_t *numbers, size_t numbers_len, size_t *rings, size_t rings_len, size_t *polygons,
                      size_t polygons_len),
                     (text, text_len, places, numbers_room, numbers_room_len, words_room, words_room_len, sizes,
                      numbers, numbers_len, rings, rings_len, polygons, polygons_len),
                     ARRAYS_IN_ROOMS,
                     (const uint8_t *text, size_t text_len, uint32_t places, uint8_t *read_room, size_t read_room_len,
                      int64_t *numbers_room, size_t numbers_room_len, size_t *words_room, size_t words_room_len,
                      WktSizes *sizes, int64_t *numbers, size_t numbers_len, size_t *rings, size_t rings_len,
                      size_t *polygons, size_t polygons_len),
                     (text, text_len, places, read_room, read_room_len, numbers_room, numbers_room_len, words_room,
                      words_room_len, sizes, numbers, numbers_len, rings, rings_len, polygons, polygons_len))

FUNCTION(wkt_read_events, READ_EVENTS,
         (const uint8_t *text, size_t text_len, uint32_t places, uint64_t *events, size_t events_len, WktUnits *numbers,
          size_t numbers_len, size_t *event_count, size_t *number_count, size_t *end),
         (text, text_len, places, events, events_len, numbers, numbers_len, event_count, number_count, end))

FUNCTION_IN_ROOMS(
    wkt_column_arrays, COLUMN_ARRAYS, COLUMN_ARRAYS_ROOMS,
    (const uint8_t *texts, size_t texts_len, const int64_t *offsets, size_t offsets_len, const uint8_t *valid,
     size_t valid_len, uint32_t places, WktColumnSizes *sizes, uint32_t *kinds, size_t kinds_len, uint32_t *dimensions,
     size_t dimensions_len, int64_t *numbers, size_t numbers_len, int64_t *number_offsets, size_t number_offsets_len,
     size_t *rings, size_t rings_len, int64_t *ring_offsets, size_t ring_offsets_len, size_t *polygons,
     size_t polygons_len, int64_t *polygon_offsets, size_t polygon_offsets_len, wkt_status *statuses,
     size_t statuses_len),
    (texts, texts_len, offsets, offsets_len, valid, valid_len, places, sizes, kinds, kinds_len, dimensions,
     dimensions_len, numbers, numbers_len, number_offsets, number_offsets_len, rings, rings_len, ring_offsets,
     ring_offsets_len, polygons, polygons_len, polygon_offsets, polygon_offsets_len, statuses, statuses_len),
    (const uint8_t *texts, size_t texts_len, const int64_t *offsets, size_t offsets_len, const uint8_t *valid,
     size_t valid_len, uint32_t places, int64_t *numbers_room, size_t numbers_room_len, size_t *words_room,
     size_t words_room_len, uint32_t *codes_room, size_t codes_room_len, WktColumnSizes *sizes, uint32_t *kinds,
     size_t kinds_len, uint32_t *dimensions, size_t dimensions_len, int64_t *numbers, size_t numbers_len,
     int64_t *number_offsets, size_t number_offsets_len, size_t *rings, size_t rings_len, int64_t *ring_offsets,
     size_t ring_offsets_len, size_t *polygons, size_t polygons_len, int64_t *polygon_offsets,
     size_t polygon_offsets_len, wkt_status *statuses, size_t statuses_len),
    (texts, texts_len, offsets, offsets_len, valid, valid_len, places, numbers_room, numbers_room_len, words_room,
     words_room_len, codes_room, codes_room_len, sizes, kinds, kinds_len, dimensions, dimensions_len, numbers,
     numbers_len, number_offsets, number_offsets_len, rings, rings_len, ring_offsets, ring_offsets_len, polygons,
     polygons_len, polygon_offsets, polygon_offsets_len, statuses, statuses_len))

FUNCTION_IN_ROOMS(wkt_from_arrays, FROM_ARRAYS, FROM_ARRAYS_ROOMS,
                  (uint32_t kind, uint32_t dimension, const int64_t *numbers, size_t numbers_len, const size_t *rings,
                   size_t rings_len, const size_t *polygons, size_t polygons_len, uint32_t places, uint8_t *out,
                   size_t out_len, size_t *needed),
                  (kind, dimension, numbers, numbers_len, rings, rings_len, polygons, polygons_len, places, out,
                   out_len, needed),
                  (uint32_t kind, uint32_t dimension, const int64_t *numbers, size_t numbers_len, const size_t *rings,
                   size_t rings_len, const size_t *polygons, size_t polygons_len, uint32_t places, uint8_t *room,
                   size_t room_len, uint8_t *out, size_t out_len, size_t *needed),
                  (kind, dimension, numbers, numbers_len, rings, rings_len, polygons, polygons_len, places, room,
                   room_len, out, out_len, needed))

FUNCTION_IN_ROOMS(
    wkt_column_from_arrays, COLUMN_FROM_ARRAYS, COLUMN_FROM_ARRAYS_ROOMS,
    (const uint32_t *kinds, size_t kinds_len, const uint32_t *dimensions, size_t dimensions_len, const int64_t *numbers,
     size_t numbers_len, const int64_t *number_offsets, size_t number_offsets_len, const size_t *rings,
     size_t rings_len, const int64_t *ring_offsets, size_t ring_offsets_len, const size_t *polygons,
     size_t polygons_len, const int64_t *polygon_offsets, size_t polygon_offsets_len, const uint8_t *valid,
     size_t valid_len, uint32_t places, uint8_t *out, size_t out_len, int64_t *out_offsets, size_t out_offsets_len,
     wkt_status *statuses, size_t statuses_len, size_t *needed),
    (kinds, kinds_len, dimensions, dimensions_len, numbers, numbers_len, number_offsets, number_offsets_len, rings,
     rings_len, ring_offsets, ring_offsets_len, polygons, polygons_len, polygon_offsets, polygon_offsets_len, valid,
     valid_len, places, out, out_len, out_offsets, out_offsets_len, statuses, statuses_len, needed),
    (const uint32_t *kinds, size_t kinds_len, const uint32_t *dimensions, size_t dimensions_len, const int64_t *numbers,
     size_t numbers_len, const int64_t *number_offsets, size_t number_offsets_len, const size_t *rings,
     size_t rings_len, const int64_t *ring_offsets, size_t ring_offsets_len, const size_t *polygons,
     size_t polygons_len, const int64_t *polygon_offsets, size_t polygon_offsets_len, const uint8_t *valid,
     size_t valid_len, uint32_t places, uint8_t *room, size_t room_len, size_t *ends_room, size_t ends_room_len,
     uint32_t *codes_room, size_t codes_room_len, uint8_t *out, size_t out_len, int64_t *out_offsets,
     size_t out_offsets_len, wkt_status *statuses, size_t statuses_len, size_t *needed),
    (kinds, kinds_len, dimensions, dimensions_len, numbers, numbers_len, number_offsets, number_offsets_len, rings,
     rings_len, ring_offsets, ring_offsets_len, polygons, polygons_len, polygon_offsets, polygon_offsets_len, valid,
     valid_len, places, room, room_len, ends_room, ends_room_len, codes_room, codes_room_len, out, out_len, out_offsets,
     out_offsets_len, statuses, statuses_len, needed))
