/* Why a text is refused, in words: the errors, and the answers of wkt_explain. */
#include "wkt_pg.h"

#include "printable.h"

#include "catalog/namespace.h"
#include "lib/stringinfo.h"
#include "mb/pg_wchar.h"
#include "utils/builtins.h"
#if PG_VERSION_NUM >= 160000
#include "nodes/miscnodes.h"
#else
/* Before 16 there are no soft errors. */
#define ereturn(context, dummy, rest) ereport(ERROR, rest)
#endif

/* Why a whole text is refused: at which byte, and what could come next, which is NULL where no place is known; one stable
 * word; what may be done, which is NULL where that isn't known; the place and what was expected as a sentence. What is read before the place is ASCII, and
 * so each of its characters a byte. */
typedef struct Refusal {
    size_t start;
    const char *expected, *cause, *hint, *message;
} Refusal;

static inline wkt_status call_hint(Call *call) {
    const Question *asked = call->asked;
    return wkt_hint(asked->utf8, asked->length, asked->places, &call->hint);
}

/* What the text may come from, or what would be read. */
static void add_hint(Refusal *refusal, const Question *asked) {
    static const char *const hints[] = WKT_HINTS, *const words[] = WKT_HINT_WORDS;
    Call call = {.asked = asked};
    char *said;
    if (make_call(call_hint, &call, asked->length) != WKT_OK || call.hint == WKT_HINT_NONE) return;
    said = psprintf(hints[call.hint], asked->places % WKT_WHOLE);
    said[0] = (char)pg_toupper((unsigned char)said[0]);
    refusal->hint = psprintf("%s.", said);
    refusal->cause = words[call.hint];
}

static inline wkt_status call_explain(Call *call) {
    const Question *asked = call->asked;
    uint32_t message;
    size_t stop;
    return wkt_explain(asked->utf8, asked->length, asked->places | WKT_WHOLE, &message, &call->start, &stop,
                       &call->expected);
}

static Refusal refusal_of(const Question *asked) {
    static const char *const expected[] = WKT_EXPECTED, *const words[] = WKT_EXPECTED_WORDS;
    Call call = {.asked = asked};
    wkt_status status = make_call(call_explain, &call, asked->length);
    Refusal refusal = {.start = call.start};
    if (status == WKT_OK) {
        refusal.expected = expected[call.expected];
        refusal.cause = psprintf("expected_%s", words[call.expected]);
        add_hint(&refusal, asked);
    } else if (status == WKT_NOT_WHOLE) {
        refusal.expected = "the end of the text";
        refusal.cause = "not_whole";
    } else
        refusal.cause = status == WKT_NOT_UTF8 ? "not_utf8" : "other";
    if (refusal.expected)
        refusal.message = psprintf("At character %d: %s was expected.", (int)refusal.start + 1, refusal.expected);
    else
        refusal.message = psprintf("%s.", wkt_message(status));
    return refusal;
}

/* The number by which is_printable knows a character: its code point, or that of U+FFFD, which is printable, where it has none.
 * Where no encoding is known any byte beyond ASCII may be part of what isn't printable. Before PostgreSQL 14 a conversion may
 * be an error: there the bytes of ISO's encodings, which up to 0xAD mean what code points do, are looked at alone. */
static uint32 number_of(const char *at, int size) {
    int encoding = GetDatabaseEncoding();
    if (encoding == PG_UTF8 || !IS_HIGHBIT_SET(*at)) return utf8_to_unicode((const unsigned char *)at);
    if (encoding == PG_SQL_ASCII) return 0x80;
#if PG_VERSION_NUM >= 140000
    {
        unsigned char utf8[MAX_CONVERSION_GROWTH * MAX_MULTIBYTE_CHAR_LEN + 1];
        Oid call = FindDefaultConversionProc(encoding, PG_UTF8);
        if (OidIsValid(call) &&
            pg_do_encoding_conversion_buf(call, encoding, PG_UTF8, (unsigned char *)unconstify(char *, at), size, utf8,
                                          sizeof utf8, true) == size)
            return utf8_to_unicode(utf8);
    }
#else
    if ((encoding >= PG_LATIN1 && encoding <= PG_LATIN10) || (encoding >= PG_ISO_8859_5 && encoding <= PG_ISO_8859_8))
        return (unsigned char)*at;
#endif
    return 0xFFFD;
}

/* Appends characters as they are shown. What isn't printable is shown by its number, as \x1b or \u{202e}: raw it could move
 * a cursor, or look like another line of the message. */
static void append_shown(StringInfo said, const char *given, const char *end) {
    for (int size; given < end; given += size) {
        uint32 c = number_of(given, size = pg_mblen(given));
        if (is_printable(c))
            appendBinaryStringInfo(said, given, size);
        else if (size == 1)
            appendStringInfo(said, "\\x%02x", (unsigned char)*given);
        else
            appendStringInfo(said, "\\u{%x}", c);
    }
}

/* The front of a text as a message shows it. */
char *quoted(const char *given, size_t length) {
    const char *end = given + pg_mbcliplen(given, (int)length, 60);
    StringInfoData said;
    initStringInfo(&said);
    append_shown(&said, given, end);
    if (given + length > end) appendStringInfoString(&said, "..");
    return said.data;
}

/* The error of a refusal, soft where the caller has a context for it. */
Datum refuse(Node *context, const Question *asked) {
    Refusal refusal = refusal_of(asked);

    ereturn(context, (Datum)0,
            (errcode(ERRCODE_INVALID_TEXT_REPRESENTATION),
             errmsg("invalid well-known text: \"%s\"", quoted(asked->given, asked->length)),
             errdetail("%s", refusal.message), refusal.hint ? errhint("%s", refusal.hint) : 0));
}

static void put_text(Datum *row, bool *nulls, int column, const char *said) {
    nulls[column] = said == NULL;
    if (said) row[column] = CStringGetTextDatum(said);
}

/* The columns place, expected, cause, hint and message. */
#define REFUSAL_COLUMNS 5
static void put_refusal(const Refusal *refusal, Datum *row, bool *nulls) {
    nulls[0] = refusal->expected == NULL;
    row[0] = Int32GetDatum((int)refusal->start + 1);
    put_text(row, nulls, 1, refusal->expected);
    put_text(row, nulls, 2, refusal->cause);
    put_text(row, nulls, 3, refusal->hint);
    put_text(row, nulls, 4, refusal->message);
}

/* The value of a text, or why there is none: a row, and no error. */
PG_FUNCTION_INFO_V1(pg_wkt_read);
Datum pg_wkt_read(PG_FUNCTION_ARGS) {
    Question asked = question_of_text(PG_GETARG_TEXT_PP(0), asked_of(fcinfo, 1, TYPE_PLACES));
    Datum row[1 + REFUSAL_COLUMNS] = {0};
    bool nulls[1 + REFUSAL_COLUMNS] = {false, true, true, true, true, true};
    text *answer;
    if (has_value(&asked, &answer))
        row[0] = PointerGetDatum(answer);
    else {
        Refusal refusal = refusal_of(&asked);
        nulls[0] = true;
        put_refusal(&refusal, row + 1, nulls + 1);
    }
    return row_of(fcinfo, row, nulls);
}

/* From the place back, and on, so many characters at most, and not past the line. */
#define AROUND 60

static bool ends_line(char c) { return c == '\n' || c == '\r'; }

/* The line of the text where it is refused, and below it a caret at the place and what was expected there. */
static text *shown(const Question *asked, const Refusal *refusal) {
    StringInfoData said;
    size_t start = refusal->start, from, to, end, most;
    int caret;
    const char *given = asked->given;

    if (refusal->expected == NULL) return cstring_to_text(refusal->message);
    for (from = start; from > 0 && start - from < AROUND && given[from - 1] != '\n';) from--;
    most = Min(asked->length, start + (AROUND + 1) * MAX_MULTIBYTE_CHAR_LEN);
    for (end = start; end < most && !ends_line(given[end]);) end++;
    to = start + pg_mbcharcliplen(given + start, (int)(end - start), AROUND);
    initStringInfo(&said);
    if (from > 0 && given[from - 1] != '\n') appendStringInfoString(&said, "..");
    append_shown(&said, given + from, given + start);
    caret = said.len;
    append_shown(&said, given + start, given + to);
    appendStringInfoString(&said, to < end ? "..\n" : "\n");
    for (int i = 0; i < caret; i++) appendStringInfoChar(&said, said.data[i] == '\t' ? '\t' : ' ');
    appendStringInfo(&said, "^ %s was expected", refusal->expected);
    return cstring_to_text_with_len(said.data, said.len);
}

/* Why a text is refused: a row; null where it is read. */
PG_FUNCTION_INFO_V1(pg_wkt_explain);
Datum pg_wkt_explain(PG_FUNCTION_ARGS) {
    Question asked = question_of_text(PG_GETARG_TEXT_PP(0), asked_of(fcinfo, 1, MOST_PLACES));
    Datum row[REFUSAL_COLUMNS + 1];
    bool nulls[REFUSAL_COLUMNS + 1] = {false};
    Refusal refusal;
    if (canonical_of(&asked, NULL)) PG_RETURN_NULL();
    refusal = refusal_of(&asked);
    put_refusal(&refusal, row, nulls);
    row[REFUSAL_COLUMNS] = PointerGetDatum(shown(&asked, &refusal));
    return row_of(fcinfo, row, nulls);
}
