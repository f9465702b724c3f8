/* Well-known text, read and written by proved code: one text for one geometry, exact decimals, exact refusals.
 *
 * Numbers are decimals with up to `places` digits after the point, 0 to 36. Nothing is rounded: a text with more digits
 * after the point is refused (WKT_HINT_PLACES). A number is -2^127 to 2^127 - 1 units of ten to the minus `places`, and a
 * text with any other is refused (WKT_HINT_LARGE; WKT_HINT_FEWER if 18 places surely hold it). So more places leave less
 * room before the point: all numbers with up to 38 - `places` digits there fit. 18 places hold numbers up to some 1.7e20,
 * 35 up to 1701.4, and so all degrees, and 36 up to 170.14. A text has the same canonical text with all places that read
 * it. Arrays hold units of 64 bits: see wkt_arrays.
 *
 * Every function except wkt_version, wkt_supported and wkt_message returns a status. After any status but WKT_OK the
 * caller's buffers are unchanged (except by wkt_lines_some and wkt_read_events), and so are the results (*needed, *end,
 * *same, *sizes ..), unless a comment says that one is set. Texts need no 0 at the end, and may hold any bytes.
 *
 * Every call refuses, before it reads anything:
 * - with WKT_NOT_SUPPORTED, everything where wkt_supported() is 0;
 * - with WKT_NULL_POINTER, a pointer that is NULL. A buffer or text of size 0 may be NULL;
 * - with WKT_TOO_LONG, a buffer or text of more than PTRDIFF_MAX bytes. A size counts items, of 1, 4, 8 or 16 bytes each. Where
 *   the library is portable C (dist/README), a call that doesn't fit into 4 GiB with its texts and answers is refused so, too.
 * Of the last two, the first parameter that is wrong decides.
 *
 * If two of the other statuses hold, the call returns the first of 27, 23, 26, 20, 1 to 14, 24, 25, 30, 21. Of two texts, 20
 * of either comes first, and otherwise the first text decides. 22 may come instead of any of these but 27 and 23.
 *
 * Each function from wkt_canonical on is proved to do what its comment says, in crates/wkt_c/src/exports*.rt. Only tested,
 * and not proved, are the three functions without a status, those three statuses, what a call costs, and that memory
 * suffices. A proved function works in memory that it is passed, and is proved to return WKT_NO_MEMORY only where that is
 * too small, but for those of columns; that the library passes enough is tested.
 *
 * What a call costs: it checks its whole text for UTF-8, also after the geometry. wkt_canonical, wkt_same and
 * wkt_same_ends take memory for twice the text, and none for texts of up to 200 bytes. So to read one geometry after the
 * other, don't pass all that is left of a large buffer from *end on: pass a piece at a time, or call wkt_lines_some.
 * A call takes its memory at once, by one malloc, for the longest answer that there can be: calls of arrays and columns ask
 * for more than they write. Only wkt_lines and wkt_lines_some, and calls in dialects, may free it and ask for more.
 * A canonical text has at most twice the length of its text and 65 bytes more: a buffer of that size is never too small,
 * without dialects.
 *
 * What nothing checks, and the caller has to ensure:
 * - each pointer is aligned as its type asks: 8 bytes for int64_t, uint64_t, size_t and the structs, 4 for uint32_t;
 * - no two pointers that are passed overlap, except those that are only read; each size is that of its buffer;
 * - malloc, realloc and free come from one allocator;
 * - no call is made from a signal handler, nor in the forked child of a process with threads. Calls may run on several
 *   threads at once: no call depends on another;
 * - arrays that are passed to a call, offsets too, don't change while it runs.
 *
 * docs/ABI.md says what a later version keeps. */
#ifndef WKT_H
#define WKT_H
/* Laid out by hand: each buffer stands beside its size. */
/* clang-format off */
#include <stddef.h>
#include <stdint.h>
#ifdef __cplusplus
extern "C" {
#endif

#define WKT_VERSION "1.0.0-dev"
/* The version of the linked library; that of this header is WKT_VERSION. */
const char *wkt_version(void);

/* This version has wkt_explain; no call takes stack for nesting; it has wkt_hint, wkt_supported and wkt_message; it has
 * wkt_read_events. */
#define WKT_HAS_EXPLAIN 1
#define WKT_NO_STACK 1
#define WKT_HAS_HINT 1
#define WKT_HAS_EVENTS 1

/* Added to `places`: each text, or each row, has to be one geometry as a whole. A text with more than white space after its
 * geometry gives WKT_NOT_WHOLE; a 0 byte counts as more. For the calls whose comment names it. */
#define WKT_WHOLE 256u

/* Added to `places`, a bit each: dialects, which other tools write (docs/DIALECTS.md). A text that begins with a geometry
 * without them is read as it stands; another is read as the text that the dialects make of it, and each place is one of the
 * text as it was given. For the calls whose comment names them; the others refuse them with WKT_NO_PLACES. With any of them
 * 22 may come of a text of any length, and a canonical text may have more than 2 * text_len + 65 bytes: 1e40 is 41 digits.
 * WKT_SRID: `SRID=`, one to nine digits and `;` in front are left out, and wkt_srid reports them.
 * WKT_UNTAGGED: POINT(1 2 3) is POINT Z(1 2 3), and a first coordinate of four numbers is ZM.
 * WKT_EXPONENTS: 1e-7 is 0.0000001.
 * WKT_NAN: POINT(nan nan) is POINT EMPTY. */
#define WKT_HAS_DIALECTS 1
#define WKT_SRID 512u
#define WKT_UNTAGGED 1024u
#define WKT_EXPONENTS 2048u
#define WKT_NAN 4096u
#define WKT_EWKT (WKT_SRID | WKT_UNTAGGED)

typedef uint32_t wkt_status;
/* names.py: c (tests/gate/names.py --write makes this of docs/names.tsv) */
/* Statuses. 1 to 14: the text begins with no geometry, and WKT_MESSAGES says why. */
enum {
    WKT_OK = 0, /* Done */
    WKT_BAD_NUMBER = 13, /* of the refusals, 1 to 14: a number has too many decimals, or is too large */
    WKT_LAST_REFUSAL = 14, /* Refused */
    WKT_NOT_UTF8 = 20, /* The text is not UTF-8 */
    WKT_TOO_SMALL = 21, /* A buffer has no room */
    WKT_NO_MEMORY = 22, /* Out of memory */
    WKT_NO_PLACES = 23, /* There are no numbers of so many places */
    WKT_COLLECTION = 24, /* A collection has no flat arrays */
    WKT_TOO_LARGE = 25, /* A number has more units than 64 bits hold */
    WKT_NOT_ARRAYS = 26, /* The arrays are of no geometry */
    WKT_NOT_COLUMN = 27, /* The offsets, the bits or the sizes are of no column */
    WKT_NULL = 28, /* The row is null */
    WKT_ACCEPTED = 29, /* The text is not refused */
    WKT_NOT_WHOLE = 30, /* More than white space follows the geometry */
    WKT_NULL_POINTER = 31, /* A pointer is NULL */
    WKT_NOT_SUPPORTED = 32, /* The processor is not supported */
    WKT_TOO_LONG = 33 /* A size is more than PTRDIFF_MAX */
};
/* Kinds. */
enum {
    WKT_POINT = 0,
    WKT_LINESTRING = 1,
    WKT_POLYGON = 2,
    WKT_MULTIPOINT = 3,
    WKT_MULTILINESTRING = 4,
    WKT_MULTIPOLYGON = 5,
    WKT_GEOMETRYCOLLECTION = 6
};
/* Dimensions. */
enum {
    WKT_XY = 0,
    WKT_XYZ = 1,
    WKT_XYM = 2,
    WKT_XYZM = 3
};
/* What could stand where a text is refused. */
enum {
    WKT_EXPECTED_KIND = 0, /* a kind of geometry, such as POINT, */
    WKT_EXPECTED_MEMBER = 1, /* a member of the collection */
    WKT_EXPECTED_DIMENSION = 2, /* `(`, EMPTY, Z, M or ZM */
    WKT_EXPECTED_OPENING = 3, /* `(` or EMPTY */
    WKT_EXPECTED_POINT = 4, /* a first number, `(` or EMPTY */
    WKT_EXPECTED_X = 5, /* a first number */
    WKT_EXPECTED_Y = 6, /* a second number */
    WKT_EXPECTED_Z = 7, /* a number z */
    WKT_EXPECTED_M = 8, /* a number m */
    WKT_EXPECTED_MORE = 9, /* `,` or `)` */
    WKT_EXPECTED_CLOSING = 10 /* `)` */
};
/* Why a text is refused, as far as that is known. */
enum {
    WKT_HINT_NONE = 0,
    WKT_HINT_BYTE_ORDER_MARK = 1, /* the text begins with a byte order mark */
    WKT_HINT_HEXADECIMAL = 2, /* WKB in hexadecimal is not read; ST_AsText gives its text */
    WKT_HINT_SRID = 3, /* SRID=..; of EWKT is not read; ST_AsText leaves it out */
    WKT_HINT_CURVE = 4, /* curves are not read; ST_CurveToLine gives lines */
    WKT_HINT_SURFACE = 5, /* triangles and surfaces are not read; polygons are */
    WKT_HINT_EXPONENT = 6, /* exponents are not read; write 0.0000001 for 1e-7 */
    WKT_HINT_NO_NUMBER = 7, /* NaN and infinity are no decimals; EMPTY says that there is no point */
    WKT_HINT_PLACES = 8, /* numbers have at most %u places here */
    WKT_HINT_LARGE = 9, /* the number is too large */
    WKT_HINT_DIMENSION = 10, /* a third number needs Z or M, as in POINT Z(1 2 3), and a fourth ZM */
    WKT_HINT_EMPTY = 11, /* what holds nothing is written EMPTY, without parentheses */
    WKT_HINT_FEWER = 12, /* with 18 places the number is read */
    WKT_HINT_COMMA = 13, /* commas separate coordinates, and spaces their numbers; decimals have a point */
    WKT_HINT_MISSING = 14, /* NULL, None and nan are not read; leave the row out, or write POINT EMPTY */
    WKT_HINT_QUOTES = 15, /* quotes are not read; leave them out */
    WKT_HINT_NO_BREAK_SPACE = 16, /* a no-break space is not read as a space; write a plain one */
    WKT_HINT_MINUS = 17, /* a dash or a typographic minus is not read; write the plain - */
    WKT_HINT_BOX = 18, /* boxes are not read; polygons are */
    WKT_HINT_BRACES = 19, /* braces are not read; ST_AsText(ST_GeomFromGeoJSON(..)) gives the text of GeoJSON */
    WKT_HINT_NO_KIND = 20, /* a geometry begins with its kind, as in POINT(1 2) */
    WKT_HINT_PARENTHESIS = 21 /* numbers stand in parentheses, as in POINT(1 2) and POLYGON((0 0,1 0,0 1,0 0)) */
};
/* The words of a status, at its number. */
#define WKT_MESSAGES { "", "Invalid WKT format", "Encountered non-ascii word", "Invalid type encountered", \
    "Unexpected word before open paren", "End of stream", "Missing open parenthesis for type", \
    "Missing closing parenthesis for type", "Expected a number for the X coordinate", \
    "Expected a number for the Y coordinate", "Expected a number for the Z coordinate", \
    "Expected a number for the M coordinate", "Expected a word in GEOMETRYCOLLECTION", \
    "Unable to parse input number as the desired output type", "Refused", "", "", "", "", "", \
    "The text is not UTF-8", "A buffer has no room", "Out of memory", "There are no numbers of so many places", \
    "A collection has no flat arrays", "A number has more units than 64 bits hold", "The arrays are of no geometry", \
    "The offsets, the bits or the sizes are of no column", "The row is null", "The text is not refused", \
    "More than white space follows the geometry", "A pointer is NULL", "The processor is not supported", \
    "A size is more than PTRDIFF_MAX" }
/* The words of the statuses 1 to 3 of wkt_infer. */
#define WKT_HEADER_MESSAGES { "", "No kind word", "No space before EMPTY", "Neither a parenthesis nor EMPTY" }
/* The kinds, at their numbers. */
#define WKT_KINDS { "Point", "LineString", "Polygon", "MultiPoint", "MultiLineString", "MultiPolygon", \
    "GeometryCollection" }
/* Their kind words. */
#define WKT_KIND_WORDS { "POINT", "LINESTRING", "POLYGON", "MULTIPOINT", "MULTILINESTRING", "MULTIPOLYGON", \
    "GEOMETRYCOLLECTION" }
/* The dimensions, at their numbers. */
#define WKT_DIMENSIONS { "XY", "XYZ", "XYM", "XYZM" }
/* What stands after a kind word for each. */
#define WKT_DIMENSION_WORDS { "", "Z", "M", "ZM" }
/* What could stand where a text is refused, at its number. */
#define WKT_EXPECTED { "a kind of geometry, such as POINT,", "a member of the collection", "`(`, EMPTY, Z, M or ZM", \
    "`(` or EMPTY", "a first number, `(` or EMPTY", "a first number", "a second number", "a number z", "a number m", \
    "`,` or `)`", "`)`" }
/* Why a text is refused, at the number of the hint; %u is the number of places. */
#define WKT_HINTS { "", "the text begins with a byte order mark", \
    "WKB in hexadecimal is not read; ST_AsText gives its text", \
    "SRID=..; of EWKT is not read; ST_AsText leaves it out", "curves are not read; ST_CurveToLine gives lines", \
    "triangles and surfaces are not read; polygons are", "exponents are not read; write 0.0000001 for 1e-7", \
    "NaN and infinity are no decimals; EMPTY says that there is no point", "numbers have at most %u places here", \
    "the number is too large", "a third number needs Z or M, as in POINT Z(1 2 3), and a fourth ZM", \
    "what holds nothing is written EMPTY, without parentheses", "with 18 places the number is read", \
    "commas separate coordinates, and spaces their numbers; decimals have a point", \
    "NULL, None and nan are not read; leave the row out, or write POINT EMPTY", \
    "quotes are not read; leave them out", "a no-break space is not read as a space; write a plain one", \
    "a dash or a typographic minus is not read; write the plain -", "boxes are not read; polygons are", \
    "braces are not read; ST_AsText(ST_GeomFromGeoJSON(..)) gives the text of GeoJSON", \
    "a geometry begins with its kind, as in POINT(1 2)", \
    "numbers stand in parentheses, as in POINT(1 2) and POLYGON((0 0,1 0,0 1,0 0))" }
/* The same as one stable word, for tables: EXPECTED. */
#define WKT_EXPECTED_WORDS { "kind", "member", "dimension", "opening", "point", "x", "y", "z", "m", "more", \
    "closing" }
/* The same as one stable word, for tables: HINT. */
#define WKT_HINT_WORDS { "none", "byte_order_mark", "hexadecimal", "srid", "curve", "surface", "exponent", \
    "no_number", "places", "large", "dimension", "empty", "fewer", "comma", "missing", "quotes", "no_break_space", \
    "minus", "box", "braces", "no_kind", "parenthesis" }
/* names.py: end */

/* Whether this processor has what the library is built for: 1, or 0. On x86-64 that is SSE4.2 and POPCNT (x86-64-v2, all
 * since about 2009); any aarch64 will do. */
int wkt_supported(void);

/* The words of a status, as WKT_MESSAGES has them; "" for WKT_OK and for a number that is no status. */
const char *wkt_message(wkt_status status);

/* The message for a text that begins with no geometry is proved to be that of the table in docs/GRAMMAR.md; 14 never
 * comes. After WKT_TOO_SMALL *needed and the other non-buffer results are set, except by wkt_lines_some. Only rows have
 * WKT_NULL. A coordinate has 2, 3, 3 or 4 numbers, by its dimension: XY, XYZ, XYM, XYZM. */

/* The canonical text of the geometry that the text begins with. *end: where the geometry ends in the text; what
 * follows may be anything that is UTF-8, or, with WKT_WHOLE, white space. WKT_OK: the text is in out, and *needed is its
 * length, at most 2 * text_len + 65. WKT_TOO_SMALL: *needed is its length, and *end is set too. WKT_NOT_WHOLE: *end is
 * set. 1..14, 20, 23; 22 only for a text of more than 200 bytes, or with dialects. Takes WKT_WHOLE and dialects. */
wkt_status wkt_canonical(const uint8_t *text, size_t text_len, uint32_t places,
                         uint8_t *out, size_t out_len, size_t *needed, size_t *end);

/* Whether two texts begin with one geometry: *same is 1 exactly if their canonical texts are equal, and else 0.
 * 1..14, 20 (of one of the texts), 23, and WKT_NOT_WHOLE of one of the texts, with WKT_WHOLE; 22 only if one has more
 * than 200 bytes, or with dialects. Takes dialects: a text with SRID=1; is the same as one with SRID=2;. */
wkt_status wkt_same(const uint8_t *one, size_t one_len, const uint8_t *other, size_t other_len, uint32_t places,
                    uint32_t *same);

/* The same; and *end and *other_end: where each geometry ends in its text. WKT_NOT_WHOLE: both are set too. */
wkt_status wkt_same_ends(const uint8_t *one, size_t one_len, const uint8_t *other, size_t other_len, uint32_t places,
                         uint32_t *same, size_t *end, size_t *other_end);

/* Where a text is refused. WKT_OK: the bytes from *start to before *stop are the first word, number, parenthesis or comma
 * that is refused; *start is *stop where the text ends too early. *message: the number of the message, 1 to 14;
 * *expected: what could come next, in WKT_EXPECTED. WKT_ACCEPTED: the text begins with a geometry. With WKT_WHOLE,
 * WKT_NOT_WHOLE: more than white space follows the geometry; *start is the first byte of it that is no white space, and
 * *stop is text_len; *message and *expected are as they were. 20, 23. It takes no memory without dialects, and with them 22
 * may come: *message and *expected are then of the text that the text is read as, *start and *stop of the text itself. */
wkt_status wkt_explain(const uint8_t *text, size_t text_len, uint32_t places, uint32_t *message, size_t *start,
                       size_t *stop, uint32_t *expected);

/* Why a text is refused, in a user's words: *hint is a number in WKT_HINTS, or 0 where nothing is known. It is about the
 * bytes from *start to *stop of wkt_explain. The words of WKT_HINT_PLACES have a %u for the number of places that was
 * asked for. WKT_ACCEPTED, WKT_NOT_WHOLE, 20, 23, dialects: as of wkt_explain. */
wkt_status wkt_hint(const uint8_t *text, size_t text_len, uint32_t places, uint32_t *hint);

/* The SRID in front of a text, as WKT_SRID leaves it out: *srid is its number, and *end where what stands behind the `;`
 * begins; both are 0 where it has none. What stands behind it may be anything. WKT_OK. It takes no memory. */
wkt_status wkt_srid(const uint8_t *text, size_t text_len, uint32_t *srid, size_t *end);

/* The kind and the dimension that the header of the text names; the rest is not read. 3: there is neither a parenthesis nor
 * EMPTY. 2: EMPTY comes first, with no space before it. 1: it begins with no kind word. Of these three the first that holds,
 * in this order. 20. It takes no memory. */
wkt_status wkt_infer(const uint8_t *text, size_t text_len, uint32_t *kind, uint32_t *dimension);

/* All lines at once: for each line of the input, the canonical text of the geometry that it begins with or `refused`,
 * and a line feed. With 18 places this is what the program wktline writes. WKT_TOO_SMALL: *needed is the length of all. 22,
 * 23. A line of n bytes is answered in at most 2n + 8 (tested, not proved). */
wkt_status wkt_lines(const uint8_t *input, size_t input_len, uint32_t places, uint8_t *out, size_t out_len,
                     size_t *needed);

/* The same piece by piece: as many whole lines at the front of the input as fit. *taken: how many bytes of the input they
 * are; *written: how many bytes of out are their answers; the rest of out is unspecified. last: 1 if the input ends here,
 * so that what is left after its last line feed is a line too; else 0, and the caller adds more after what is left. The
 * answers of successive calls, one after the other, are those of wkt_lines to all of the input. *taken is 0 only if there
 * is no whole line. WKT_TOO_SMALL: the answer to the first line doesn't fit. 22, 23. After any status but WKT_OK all of out
 * is unspecified, and nothing is taken.
 * A call may look at all of its input. So if a line comes in pieces, call once its line feed or the end has come: a call for
 * each piece would take time with the square of the line's length. Let both buffers grow by doubling: the input's when it is
 * full without a line feed, out after WKT_TOO_SMALL. capi/examples/stream.c does so. */
wkt_status wkt_lines_some(const uint8_t *input, size_t input_len, uint32_t places, uint32_t last,
                          uint8_t *out, size_t out_len, size_t *taken, size_t *written);

/* A column at once, as Arrow's large_utf8 has it. Row i is the bytes of texts from offsets[i] to offsets[i + 1], so
 * there is one offset more than rows. valid: bit i % 8, from the lowest on, of byte i / 8 is 0 if row i is null; NULL and 0
 * if no row is. out_offsets has room for as many offsets, statuses for a status of each row.
 * WKT_OK: the canonical texts of all rows are in out, one after the other, and *needed is their length; row i's is from
 * out_offsets[i] to out_offsets[i + 1]. statuses[i] is WKT_OK, or why row i has no text: 1..14, 20, WKT_NULL, or, with
 * WKT_WHOLE, WKT_NOT_WHOLE.
 * WKT_TOO_SMALL: *needed is their length, at most 2 * texts_len and a byte for each row. 22, 23. WKT_NOT_COLUMN: an offset
 * is less than the one before it, or past texts (as one below 0 is), or a size fits no such column. After any status but
 * WKT_OK the three buffers are unchanged. */
wkt_status wkt_column_canonical(const uint8_t *texts, size_t texts_len, const int64_t *offsets, size_t offsets_len,
                                const uint8_t *valid, size_t valid_len, uint32_t places,
                                uint8_t *out, size_t out_len, int64_t *out_offsets, size_t out_offsets_len,
                                wkt_status *statuses, size_t statuses_len, size_t *needed);

/* What wkt_arrays returns beside the arrays; with WKT_NOT_WHOLE too. */
typedef struct {
    uint32_t kind, dimension;
    size_t numbers, rings, polygons; /* the sizes of the arrays */
    size_t end;                      /* where the geometry ends in the text */
} WktSizes;

/* A geometry that is no collection as flat arrays: its numbers, in units, coordinate after coordinate; where each
 * ring begins among the coordinates, and the end of the last; where each polygon begins among the rings, and the end
 * of the last. A line string, a line and a point (of one coordinate, or none if it is empty) count as a ring, and the
 * rings of each kind but MultiPolygon as one polygon. So a Point has rings {0, 1} and polygons {0, 1}, and
 * POLYGON EMPTY has rings {0} and polygons {0, 0}. (GeoArrow: numbers are the interleaved coordinates, rings and
 * polygons its offsets.) WKT_TOO_SMALL: *sizes has all sizes. 1..14, 20, 23, 24, 25, and WKT_NOT_WHOLE, with
 * WKT_WHOLE; 22 only for a text of more than 64 bytes.
 * If a number has more units than an int64_t holds, the status is 25, with any places. Arrays hold numbers from
 * -9223372036854775808 to 9223372036854775807 units: with 6 places up to 9.2e12, with 16 up to 922.3, and so all degrees,
 * with 18 up to 9.22. `places` may be 0 to 36; with 19 no whole number but 0 has arrays, and with 36 only numbers up to
 * 9.2e-18.
 * The arrays are those of the value as it is read. So POLYGON(EMPTY,(1 2)) has other arrays than POLYGON EMPTY, which is its
 * canonical text. For one set of arrays for one canonical text, pass that text. */
wkt_status wkt_arrays(const uint8_t *text, size_t text_len, uint32_t places, WktSizes *sizes,
                      int64_t *numbers, size_t numbers_len, size_t *rings, size_t rings_len,
                      size_t *polygons, size_t polygons_len);

/* A number of wkt_read_events: low + 2^64 * high units. Where the lower half of an integer of 128 bits comes first, it lies as
 * that does. */
typedef struct {
    uint64_t low;
    int64_t high;
} WktUnits;

/* The events of wkt_read_events: WKT_EVENT_BEGIN + 4 * kind + dimension, WKT_EVENT_END, or a number of coordinates, which is
 * less than both. Of the first the kind is WKT_EVENT_KIND(e), and the dimension WKT_EVENT_DIMENSION(e). */
#define WKT_EVENT_BEGIN ((uint64_t)1 << 63)
#define WKT_EVENT_END UINT64_MAX
#define WKT_EVENT_KIND(e) ((uint32_t)((e) >> 2 & 7))
#define WKT_EVENT_DIMENSION(e) ((uint32_t)((e) & 3))

/* A geometry of any kind, collections too, as two lists in the order of its text: events, and all its numbers, in units,
 * coordinate after coordinate. A geometry begins with WKT_EVENT_BEGIN, which says its kind and its dimension, and ends with
 * WKT_EVENT_END. Between them is for each point (of none or one coordinate), line string, line and ring how many
 * coordinates it has, which are the next of the numbers; so one count in a Point and in a LineString. The polygons of a
 * MultiPolygon and the members of a GeometryCollection begin and end in turn. So MULTIPOLYGON(((1 2,3 4)),EMPTY) is
 * {begin MultiPolygon, begin Polygon, 2, end, begin Polygon, end, end} with four numbers, and POINT EMPTY is
 * {begin Point, 0, end} with none. capi/examples/tree.c prints them.
 * WKT_OK: the lists are at the fronts of events and numbers, whose other items are unchanged; *event_count and
 * *number_count say how long they are, and *end where the geometry ends in the text. Either list is at most half as long as
 * the text: buffers of text_len / 2 items are never too small. WKT_TOO_SMALL, and WKT_NOT_WHOLE, with WKT_WHOLE: all three
 * are set. 1..14, 20, 23. After any status but WKT_OK both buffers are unspecified.
 * Each text that wkt_canonical accepts with as many places has its lists. They are of the value as it is read, as those of
 * wkt_arrays are. It takes no memory. */
wkt_status wkt_read_events(const uint8_t *text, size_t text_len, uint32_t places,
                           uint64_t *events, size_t events_len, WktUnits *numbers, size_t numbers_len,
                           size_t *event_count, size_t *number_count, size_t *end);

/* What wkt_column_arrays returns beside the arrays: how many numbers, and how many offsets of rings and of polygons, all
 * rows have. */
typedef struct {
    size_t numbers, rings, polygons;
} WktColumnSizes;

/* The arrays of a column at once, which is given as to wkt_column_canonical. Row i's are what wkt_arrays gives of row i
 * alone: kinds[i] and dimensions[i]; the numbers from number_offsets[i] to number_offsets[i + 1] of numbers; and so its
 * offsets of rings and of polygons, each of which begins with 0. The three buffers of offsets have room for as many
 * offsets as are given, kinds, dimensions and statuses for one of each row. statuses[i] is WKT_OK, or why row i has no
 * arrays: 1..14, 20, 24, 25, WKT_NULL, or, with WKT_WHOLE, WKT_NOT_WHOLE; there are no numbers and no offsets of such a
 * row, and its kind and dimension are 0. WKT_OK: *sizes says how much of numbers, rings and polygons is filled.
 * WKT_TOO_SMALL: *sizes says how much each of the three needs. 22, 23. WKT_NOT_COLUMN: as of wkt_column_canonical. After
 * any status but WKT_OK the nine buffers are unchanged. */
wkt_status wkt_column_arrays(const uint8_t *texts, size_t texts_len, const int64_t *offsets, size_t offsets_len,
                             const uint8_t *valid, size_t valid_len, uint32_t places, WktColumnSizes *sizes,
                             uint32_t *kinds, size_t kinds_len, uint32_t *dimensions, size_t dimensions_len,
                             int64_t *numbers, size_t numbers_len, int64_t *number_offsets, size_t number_offsets_len,
                             size_t *rings, size_t rings_len, int64_t *ring_offsets, size_t ring_offsets_len,
                             size_t *polygons, size_t polygons_len,
                             int64_t *polygon_offsets, size_t polygon_offsets_len,
                             wkt_status *statuses, size_t statuses_len);

/* The canonical text of the geometry of such arrays. With any places from 0 to 36 each of their numbers has a text. 21, 22,
 * 23, 26. */
wkt_status wkt_from_arrays(uint32_t kind, uint32_t dimension, const int64_t *numbers, size_t numbers_len,
                           const size_t *rings, size_t rings_len, const size_t *polygons, size_t polygons_len,
                           uint32_t places, uint8_t *out, size_t out_len, size_t *needed);

/* The canonical texts of a column of such arrays at once: of the eight that wkt_column_arrays gives, in its order, with
 * the bits of the rows as wkt_column_canonical takes them (valid: 0 where a row is null; so a caller clears those of the
 * rows that had no arrays). There are as many rows as kinds, as many dimensions, and one offset of each sort more. The
 * rest is as of wkt_column_canonical: row i's text is from out_offsets[i] to out_offsets[i + 1] in out, and statuses[i]
 * is WKT_OK, WKT_NOT_ARRAYS or WKT_NULL. 21, 22, 23, 27. */
wkt_status wkt_column_from_arrays(const uint32_t *kinds, size_t kinds_len,
                                  const uint32_t *dimensions, size_t dimensions_len,
                                  const int64_t *numbers, size_t numbers_len,
                                  const int64_t *number_offsets, size_t number_offsets_len,
                                  const size_t *rings, size_t rings_len,
                                  const int64_t *ring_offsets, size_t ring_offsets_len,
                                  const size_t *polygons, size_t polygons_len,
                                  const int64_t *polygon_offsets, size_t polygon_offsets_len,
                                  const uint8_t *valid, size_t valid_len, uint32_t places,
                                  uint8_t *out, size_t out_len, int64_t *out_offsets, size_t out_offsets_len,
                                  wkt_status *statuses, size_t statuses_len, size_t *needed);

#ifdef __cplusplus
}
#endif
#endif
