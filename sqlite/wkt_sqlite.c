/* SQLite over libwkt: .load ./mod_wkt, or load_extension('mod_wkt').
 *
 * Each function takes a text whole: white space may follow the geometry, and nothing else. A null argument gives null.
 * All are deterministic, so indexes on expressions, generated columns and CHECK may call them, and innocuous, so a
 * schema may. places is 18 where it isn't given. */
#include "wkt_sqlite.h"
SQLITE_EXTENSION_INIT1
#include <string.h>

#include "../postgres/dialects.h"
#include "../postgres/printable.h"

#define MOST_PLACES 36
#define PLACES 18 /* where nothing is said */
/* What stands for arguments that are no places, or no dialects, or for which there is no memory: the library refuses these. */
#define NO_PLACES 37
#define NO_DIALECT 38
#define NO_ROOM 39
/* Of sqlite3_malloc64. A test takes fewer. */
#ifndef MOST_BYTES
#define MOST_BYTES 2147483391
#endif

#ifdef _WIN32
#define EXPORTED __declspec(dllexport)
#else
#define EXPORTED __attribute__((visibility("default")))
#endif
EXPORTED int sqlite3_wkt_init(sqlite3 *db, char **error, const sqlite3_api_routines *api);
EXPORTED int sqlite3_modwkt_init(sqlite3 *db, char **error, const sqlite3_api_routines *api);

static const char *const kinds[] = WKT_KIND_WORDS;
static const char *const dimensions[] = WKT_DIMENSION_WORDS;

/* Whether an argument is null, so that the answer is null too. */
static int some_null(int count, sqlite3_value **values) {
    for (int i = 0; i < count; i++)
        if (sqlite3_value_type(values[i]) == SQLITE_NULL) return 1;
    return 0;
}

/* An argument as places: a whole number from 0 to 36, as a number or as its text, as 6, 6.0 or '6.0'. */
static uint32_t places_of(sqlite3_value *value) {
    int type = sqlite3_value_numeric_type(value);
    double places = type == SQLITE_INTEGER || type == SQLITE_FLOAT ? sqlite3_value_double(value) : -1;
    return places >= 0 && places <= MOST_PLACES && places == (uint32_t)places ? (uint32_t)places : NO_PLACES;
}

/* The bytes of an argument. A blob is a text in UTF-8, whatever the encoding of the database. */
static wkt_status question_of(sqlite3_value *value, uint32_t places, Question *asked) {
    int is_blob = sqlite3_value_type(value) == SQLITE_BLOB;
    asked->text = is_blob ? sqlite3_value_blob(value) : sqlite3_value_text(value);
    asked->length = (size_t)sqlite3_value_bytes(value);
    asked->places = places;
    if (asked->text == NULL && is_blob && asked->length == 0) asked->text = (const uint8_t *)"";
    return asked->text == NULL ? WKT_NO_MEMORY : WKT_OK;
}

/* Places with the dialects of a list added; an empty list has none. */
static uint32_t with_dialects(sqlite3_value *value, uint32_t places) {
    Question list;
    const char *at, *end;
    if (question_of(value, 0, &list) != WKT_OK) return NO_ROOM;
    at = (const char *)list.text;
    end = at + list.length;
    if (at == end) return places;
    for (size_t length;; at += length + 1) {
        uint32_t added = dialect_named(at, length = dialect_length(at, end));
        if (added == 0) return NO_DIALECT;
        places |= added;
        if (at + length == end) return places;
    }
}

/* The arguments from `at` on: places, or 18 where they aren't given, and dialects. */
uint32_t asked_of(int count, sqlite3_value **values, int at) {
    uint32_t places = count > at ? places_of(values[at]) : PLACES;
    return count > at + 1 && places != NO_PLACES ? with_dialects(values[at + 1], places) : places;
}

/* The same in so much memory of SQLite's, if `out` is asked for. */
static wkt_status canonical_in(const Question *asked, char **out, size_t room, size_t *length) {
    size_t end;
    wkt_status status;
    if (room > MOST_BYTES) return WKT_TOO_SMALL;
    if (out && (*out = sqlite3_malloc64(room)) == NULL) return WKT_NO_MEMORY;
    status = wkt_canonical(asked->text, asked->length, asked->places | WKT_WHOLE, out ? (uint8_t *)*out : NULL, room,
                           length, &end);
    if (status != WKT_OK && out) sqlite3_free(*out);
    return status;
}

/* The canonical text of a value, in memory of SQLite's, if `out` is asked for; or why there is none. A text of n bytes
 * is answered in at most some 2n + 8 without exponents, and with them, where it doesn't fit, once more. */
wkt_status canonical_of(sqlite3_value *value, uint32_t places, Question *asked, char **out, size_t *length) {
    wkt_status status = question_of(value, places, asked);
    size_t room = 2 * asked->length + 16;
    if (status != WKT_OK || places == NO_ROOM) return WKT_NO_MEMORY;
    if (room > MOST_BYTES) room = MOST_BYTES;
    status = canonical_in(asked, out, out ? room : 0, length);
    if (status != WKT_TOO_SMALL) return status;
    return out ? canonical_in(asked, out, *length, length) : WKT_OK;
}

/* Why a whole text is refused: at which byte, and what could come next, which is NULL where no place is known; one stable
 * word, of which the front is apart; why there is no place. What is read before the place is ASCII, and so each of its
 * characters a byte. */
typedef struct Refusal {
    size_t start;
    const char *expected, *front, *cause, *message;
    uint32_t hint;
    wkt_status status; /* of the library's answer: a refusal's, or that there is no memory */
} Refusal;

static Refusal refusal_of(const Question *asked) {
    static const char *const expected[] = WKT_EXPECTED, *const words[] = WKT_EXPECTED_WORDS,
                             *const hints[] = WKT_HINT_WORDS;
    Refusal refusal = {.front = "", .cause = "other"};
    uint32_t message, what;
    size_t stop;
    refusal.status =
        wkt_explain(asked->text, asked->length, asked->places | WKT_WHOLE, &message, &refusal.start, &stop, &what);
    refusal.message = wkt_message(refusal.status);
    if (refusal.status == WKT_NOT_UTF8) refusal.cause = "not_utf8";
    if (refusal.status == WKT_NOT_WHOLE) {
        refusal.expected = "the end of the text";
        refusal.cause = "not_whole";
    }
    if (refusal.status != WKT_OK) return refusal;
    refusal.expected = expected[what];
    refusal.status = wkt_hint(asked->text, asked->length, asked->places, &refusal.hint);
    refusal.front = refusal.hint ? "" : "expected_";
    refusal.cause = refusal.hint ? hints[refusal.hint] : words[what];
    return refusal;
}

static int is_refusal(wkt_status status) {
    return status <= WKT_LAST_REFUSAL || status == WKT_NOT_UTF8 || status == WKT_NOT_WHOLE;
}

/* What the text may come from, or what would be read, in memory of SQLite's. */
static char *hint_of(const Question *asked, uint32_t hint) {
    static const char *const hints[] = WKT_HINTS;
    return sqlite3_mprintf(hints[hint], asked->places % WKT_WHOLE);
}

/* The place and what was expected there, or why there is no place, in memory of SQLite's. */
static char *message_of(const Refusal *refusal) {
    if (!refusal->expected) return sqlite3_mprintf("%s", refusal->message);
    return sqlite3_mprintf("at character %llu: %s was expected", (sqlite3_uint64)refusal->start + 1, refusal->expected);
}

/* The words of an error, in memory of SQLite's; NULL where there is none. */
char *error_of(const Question *asked, wkt_status status) {
    Refusal refusal;
    char *why, *said, *full = NULL;
    if (status == WKT_NO_PLACES && asked->places == NO_DIALECT)
        return sqlite3_mprintf("unknown dialect: " DIALECT_HINT);
    if (status == WKT_NO_PLACES) return sqlite3_mprintf("places must be between 0 and %d", MOST_PLACES);
    if (!is_refusal(status)) return sqlite3_mprintf("wkt: %s", wkt_message(status));
    refusal = refusal_of(asked);
    if (!is_refusal(refusal.status)) return NULL;
    said = message_of(&refusal);
    why = hint_of(asked, refusal.hint);
    if (said && why)
        full = sqlite3_mprintf(refusal.hint ? "invalid well-known text: %s (%s)" : "invalid well-known text: %s", said,
                               why);
    sqlite3_free(said);
    sqlite3_free(why);
    return full;
}

static void refuse(sqlite3_context *context, const Question *asked, wkt_status status) {
    char *said;
    if (status == WKT_TOO_SMALL) {
        sqlite3_result_error_toobig(context);
        return;
    }
    said = status == WKT_NO_MEMORY ? NULL : error_of(asked, status);
    if (said)
        sqlite3_result_error(context, said, -1);
    else
        sqlite3_result_error_nomem(context);
    sqlite3_free(said);
}

/* A string of SQLite's as the result. */
static void put_said(sqlite3_context *context, char *said) {
    if (said)
        sqlite3_result_text(context, said, -1, sqlite3_free);
    else
        sqlite3_result_error_nomem(context);
}

/* What no text brings about: an error. */
static int is_limit(sqlite3_context *context, const Question *asked, wkt_status status) {
    if (is_refusal(status)) return 0;
    refuse(context, asked, status);
    return 1;
}

/* Returns the canonical text, if the text has one, and why it has none. */
static wkt_status answered(sqlite3_context *context, int count, sqlite3_value **values, Question *asked) {
    char *out;
    size_t length;
    wkt_status status;
    if (some_null(count, values)) return WKT_OK;
    status = canonical_of(values[0], asked_of(count, values, 1), asked, &out, &length);
    if (status == WKT_OK) sqlite3_result_text64(context, out, length, sqlite3_free, SQLITE_UTF8);
    return status;
}

static void canonical(sqlite3_context *context, int count, sqlite3_value **values) {
    Question asked;
    wkt_status status = answered(context, count, values, &asked);
    if (status != WKT_OK) refuse(context, &asked, status);
}

/* The canonical text; null where the text is refused. */
static void or_null(sqlite3_context *context, int count, sqlite3_value **values) {
    Question asked;
    wkt_status status = answered(context, count, values, &asked);
    is_limit(context, &asked, status);
}

static void reads(sqlite3_context *context, int count, sqlite3_value **values) {
    Question asked;
    size_t length;
    wkt_status status;
    if (some_null(count, values)) return;
    status = canonical_of(values[0], asked_of(count, values, 1), &asked, NULL, &length);
    if (!is_limit(context, &asked, status)) sqlite3_result_int(context, status == WKT_OK);
}

/* The canonical text of an argument of wkt_same. SQLite keeps that of a constant from row to row. */
typedef struct Key {
    uint32_t places;
    size_t length;
    char *text;
} Key;

static void free_key(void *key) {
    if (key) sqlite3_free(((Key *)key)->text);
    sqlite3_free(key);
}

static wkt_status key_of(sqlite3_value *value, uint32_t places, Question *asked, Key **made) {
    Key *key = sqlite3_malloc64(sizeof *key);
    wkt_status status;
    if (!key) return WKT_NO_MEMORY;
    key->places = places;
    status = canonical_of(value, places, asked, &key->text, &key->length);
    if (status != WKT_OK) {
        sqlite3_free(key);
        return status;
    }
    *made = key;
    return WKT_OK;
}

static void same(sqlite3_context *context, int count, sqlite3_value **values) {
    uint32_t places = asked_of(count, values, 2);
    Key *keys[2] = {NULL, NULL}, *made[2] = {NULL, NULL};
    Question asked;
    wkt_status status = WKT_OK;
    if (some_null(count, values)) return;
    for (int i = 0; i < 2 && status == WKT_OK; i++) {
        keys[i] = sqlite3_get_auxdata(context, i);
        if (keys[i] && keys[i]->places == places) continue;
        status = key_of(values[i], places, &asked, &made[i]);
        keys[i] = made[i];
    }
    if (status == WKT_OK)
        sqlite3_result_int(context, keys[0]->length == keys[1]->length &&
                                        memcmp(keys[0]->text, keys[1]->text, keys[0]->length) == 0);
    else
        refuse(context, &asked, status);
    /* At last, since one that isn't kept is freed here. */
    for (int i = 0; i < 2; i++)
        if (made[i]) sqlite3_set_auxdata(context, i, made[i], free_key);
}

/* The kind and the dimension of a header; 0 where it names none, or after an error. */
static int has_header(sqlite3_context *context, int count, sqlite3_value **values, uint32_t *kind,
                      uint32_t *dimension) {
    Question asked;
    wkt_status status;
    if (some_null(count, values)) return 0;
    status = question_of(values[0], PLACES, &asked);
    if (status == WKT_OK) status = wkt_infer(asked.text, asked.length, kind, dimension);
    return !is_limit(context, &asked, status) && status == WKT_OK;
}

static void kind(sqlite3_context *context, int count, sqlite3_value **values) {
    uint32_t k, d;
    if (has_header(context, count, values, &k, &d))
        put_said(context, sqlite3_mprintf("%s%s%s", kinds[k], d ? " " : "", dimensions[d]));
}

static void dimension(sqlite3_context *context, int count, sqlite3_value **values) {
    static const char *const names[] = WKT_DIMENSIONS;
    uint32_t k, d;
    if (has_header(context, count, values, &k, &d)) sqlite3_result_text(context, names[d], -1, SQLITE_STATIC);
}

/* The SRID in front of a text; null where there is none. */
static void srid(sqlite3_context *context, int count, sqlite3_value **values) {
    Question asked;
    uint32_t number;
    size_t end = 0;
    wkt_status status;
    if (some_null(count, values)) return;
    status = question_of(values[0], PLACES, &asked);
    if (status == WKT_OK) status = wkt_srid(asked.text, asked.length, &number, &end);
    if (!is_limit(context, &asked, status) && end != 0) sqlite3_result_int64(context, number);
}

/* What a function says of a canonical text. */
static void counted(sqlite3_context *context, int count, sqlite3_value **values, int (*call)(const char *, size_t)) {
    Question asked;
    char *out;
    size_t length;
    int found;
    wkt_status status;
    if (some_null(count, values)) return;
    status = canonical_of(values[0], asked_of(count, values, 1), &asked, &out, &length);
    if (status != WKT_OK) {
        refuse(context, &asked, status);
        return;
    }
    found = call(out, length);
    sqlite3_free(out);
    if (found < 0)
        sqlite3_result_error_nomem(context);
    else
        sqlite3_result_int(context, found);
}

static void num_points(sqlite3_context *context, int count, sqlite3_value **values) {
    counted(context, count, values, points_in);
}

static void num_parts(sqlite3_context *context, int count, sqlite3_value **values) {
    counted(context, count, values, parts_in);
}

static void version(sqlite3_context *context, int count, sqlite3_value **values) {
    (void)count, (void)values;
    sqlite3_result_text(context, wkt_version(), -1, SQLITE_STATIC);
}

/* From the place back, and on, so many characters at most, and not past the line. */
#define AROUND 60

static size_t on_from(const uint8_t *text, size_t at, size_t length) {
    for (size_t count = 0; at < length && text[at] && text[at] != '\n' && text[at] != '\r'; at++)
        if ((text[at] & 0xC0) != 0x80 && ++count > AROUND) break;
    return at;
}

/* Why a text is refused; false where it is read, where an argument is null, and after an error. */
static int is_explained(sqlite3_context *context, int count, sqlite3_value **values, Question *asked,
                        Refusal *refusal) {
    size_t length;
    wkt_status status;
    if (some_null(count, values)) return 0;
    status = canonical_of(values[0], asked_of(count, values, 1), asked, NULL, &length);
    if (status == WKT_OK || is_limit(context, asked, status)) return 0;
    *refusal = refusal_of(asked);
    return !is_limit(context, asked, refusal->status);
}

static void place(sqlite3_context *context, int count, sqlite3_value **values) {
    Question asked;
    Refusal refusal;
    if (is_explained(context, count, values, &asked, &refusal) && refusal.expected)
        sqlite3_result_int64(context, (sqlite3_int64)refusal.start + 1);
}

static void expected(sqlite3_context *context, int count, sqlite3_value **values) {
    Question asked;
    Refusal refusal;
    if (is_explained(context, count, values, &asked, &refusal))
        sqlite3_result_text(context, refusal.expected, -1, SQLITE_STATIC);
}

static void cause(sqlite3_context *context, int count, sqlite3_value **values) {
    Question asked;
    Refusal refusal;
    if (is_explained(context, count, values, &asked, &refusal))
        put_said(context, sqlite3_mprintf("%s%s", refusal.front, refusal.cause));
}

static void hint(sqlite3_context *context, int count, sqlite3_value **values) {
    Question asked;
    Refusal refusal;
    if (is_explained(context, count, values, &asked, &refusal) && refusal.hint)
        put_said(context, hint_of(&asked, refusal.hint));
}

static void message(sqlite3_context *context, int count, sqlite3_value **values) {
    Question asked;
    Refusal refusal;
    if (is_explained(context, count, values, &asked, &refusal)) put_said(context, message_of(&refusal));
}

/* Appends characters of a text as they are shown. What isn't printable is shown by its number, as \x1b or \u{202e}: raw it
 * could move a cursor. */
static void append_shown(sqlite3_str *said, const uint8_t *text, size_t from, size_t to) {
    for (size_t next; from < to; from = next) {
        uint32_t c = text[from];
        if (c >= 0xC0) c &= c >= 0xF0 ? 7 : c >= 0xE0 ? 15 : 31;
        for (next = from + 1; next < to && (text[next] & 0xC0) == 0x80; next++) c = c << 6 | (text[next] & 0x3F);
        if (is_printable(c))
            sqlite3_str_append(said, (const char *)text + from, (int)(next - from));
        else
            sqlite3_str_appendf(said, c < 0x80 ? "\\x%02x" : "\\u{%x}", c);
    }
}

/* The line of the text where it is refused, and below it a caret at the place and what was expected there. */
static void explain(sqlite3_context *context, int count, sqlite3_value **values) {
    Question asked;
    Refusal refusal;
    size_t from, to;
    const char *text;
    sqlite3_str *said;
    if (!is_explained(context, count, values, &asked, &refusal)) return;
    if (!refusal.expected) {
        sqlite3_result_text(context, refusal.message, -1, SQLITE_STATIC);
        return;
    }
    text = (const char *)asked.text;
    for (from = refusal.start; from > 0 && refusal.start - from < AROUND && text[from - 1] != '\n';) from--;
    to = on_from(asked.text, refusal.start, asked.length);
    said = sqlite3_str_new(sqlite3_context_db_handle(context));
    if (from > 0 && text[from - 1] != '\n') sqlite3_str_appendall(said, "..");
    append_shown(said, asked.text, from, to);
    if (to < asked.length && text[to] && text[to] != '\n' && text[to] != '\r') sqlite3_str_appendall(said, "..");
    sqlite3_str_appendchar(said, 1, '\n');
    if (from > 0 && text[from - 1] != '\n') sqlite3_str_appendall(said, "  ");
    for (; from < refusal.start; from++)
        sqlite3_str_appendchar(said, is_printable((uint32_t)text[from]) ? 1 : 4, text[from] == '\t' ? '\t' : ' ');
    sqlite3_str_appendf(said, "^ %s was expected", refusal.expected);
    put_made(context, said);
}

int sqlite3_wkt_init(sqlite3 *db, char **error, const sqlite3_api_routines *api) {
    static const struct {
        const char *name;
        int least, most; /* arguments */
        void (*call)(sqlite3_context *, int, sqlite3_value **);
    } functions[] = {{"wkt_canonical", 1, 3, canonical},
                     {"wkt_or_null", 1, 3, or_null},
                     {"wkt_same", 2, 4, same},
                     {"wkt_reads", 1, 3, reads},
                     {"wkt_explain", 1, 3, explain},
                     {"wkt_explain_place", 1, 3, place},
                     {"wkt_explain_expected", 1, 3, expected},
                     {"wkt_explain_cause", 1, 3, cause},
                     {"wkt_explain_hint", 1, 3, hint},
                     {"wkt_explain_message", 1, 3, message},
                     {"wkt_srid", 1, 1, srid},
                     {"wkt_kind", 1, 1, kind},
                     {"wkt_dimension", 1, 1, dimension},
                     {"wkt_num_points", 1, 2, num_points},
                     {"wkt_num_parts", 1, 2, num_parts},
                     {"wkt_version", 0, 0, version}};
    int status = SQLITE_OK;
    SQLITE_EXTENSION_INIT2(api);
    if (!wkt_supported()) {
        if (error)
            *error = sqlite3_mprintf("wkt: the processor is not supported: the library is built for x86-64 processors "
                                     "with SSE4.2 and POPCNT");
        return SQLITE_ERROR;
    }
    for (size_t i = 0; i < sizeof functions / sizeof *functions; i++)
        for (int count = functions[i].least; status == SQLITE_OK && count <= functions[i].most; count++)
            status = sqlite3_create_function_v2(db, functions[i].name, count,
                                                SQLITE_UTF8 | SQLITE_DETERMINISTIC | SQLITE_INNOCUOUS, NULL,
                                                functions[i].call, NULL, NULL, NULL);
    if (status == SQLITE_OK) status = create_tables(db);
    if (status != SQLITE_OK && error) *error = sqlite3_mprintf("wkt: %s", sqlite3_errmsg(db));
    return status;
}

/* The name under which SQLite looks where the file is mod_wkt.so, as a package of a system has it. */
int sqlite3_modwkt_init(sqlite3 *db, char **error, const sqlite3_api_routines *api) {
    return sqlite3_wkt_init(db, error, api);
}
