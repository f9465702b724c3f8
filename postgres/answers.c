/* Calls of libwkt on whole texts of the database. */
#include "wkt_pg.h"

#include "dialects.h"
#include "mb/pg_wchar.h"
#include "utils/builtins.h"
#include "utils/memutils.h"

static const char *const kinds[] = WKT_KIND_WORDS;
static const char *const dimensions[] = WKT_DIMENSION_WORDS;

void fail_with_places(int32 most) {
    ereport(ERROR, (errcode(ERRCODE_INVALID_PARAMETER_VALUE), errmsg("places must be between 0 and %d", most)));
}

static void fail_with_dialect(const char *name, size_t length) {
    const char *hint = DIALECT_HINT;
    ereport(ERROR, (errcode(ERRCODE_INVALID_PARAMETER_VALUE), errmsg("unknown dialect: \"%s\"", quoted(name, length)),
                    errhint("%c%s.", pg_toupper((unsigned char)hint[0]), hint + 1)));
}

/* The dialects of a list; an empty one has none. */
static uint32_t dialects_of(const text *list) {
    const char *at = VARDATA_ANY(list), *end = at + VARSIZE_ANY_EXHDR(list);
    uint32_t dialects = 0;
    if (at == end) return 0;
    for (size_t length;; at += length + 1) {
        uint32_t added;
        CHECK_FOR_INTERRUPTS();
        length = dialect_length(at, end);
        added = dialect_named(at, length);
        if (added == 0) fail_with_dialect(at, length);
        dialects |= added;
        if (at + length == end) return dialects;
    }
}

/* The arguments from `at` on: places, and dialects where the function takes them. */
uint32_t asked_of(FunctionCallInfo fcinfo, int at, int32 most) {
    uint32_t places = places_of(PG_GETARG_INT32(at), most);
    return PG_NARGS() > at + 1 ? places | dialects_of(PG_GETARG_TEXT_PP(at + 1)) : places;
}

/* A cancel ends these two between two parts of a long text. */
static bool is_ascii(const char *given, size_t length) {
    unsigned char all = 0;
    for (size_t at = 0; at < length && all < 0x80; at += LONG_CALL) {
        size_t end = Min(at + LONG_CALL, length);
        CHECK_FOR_INTERRUPTS();
        for (size_t i = at; i < end; i++) all |= (unsigned char)given[i];
    }
    return all < 0x80;
}

static uint8_t *as_ascii(const char *given, size_t length) {
    uint8_t *ascii = palloc(length);
    for (size_t at = 0; at < length; at += LONG_CALL) {
        size_t end = Min(at + LONG_CALL, length);
        CHECK_FOR_INTERRUPTS();
        for (size_t i = at; i < end; i++) ascii[i] = (uint8_t)given[i] < 0x80 ? (uint8_t)given[i] : 0x7F;
    }
    return ascii;
}

/* In another encoding than UTF-8 nothing is converted: a byte may have no equivalent, and it is refused where it stands. In
 * each encoding of a server the bytes of such a character are 0x80 or more. */
Question question_of(const char *given, size_t length, uint32_t places) {
    Question asked = {given, (const uint8_t *)given, length, places};
    if (GetDatabaseEncoding() != PG_UTF8 && !is_ascii(given, length)) asked.utf8 = as_ascii(given, length);
    return asked;
}

Question question_of_text(text *given, uint32_t places) {
    return question_of(VARDATA_ANY(given), VARSIZE_ANY_EXHDR(given), places);
}

void fail_without_memory(void) { ereport(ERROR, (errcode(ERRCODE_OUT_OF_MEMORY), errmsg("out of memory"))); }

/* What no text brings about. */
static void fail_with(wkt_status status) {
    ereport(ERROR, (errcode(ERRCODE_INTERNAL_ERROR), errmsg("wkt: %s", wkt_message(status))));
}

/* Whether a status says that a text has no answer. */
static bool is_refusal(wkt_status status) {
    return (status != WKT_OK && status <= WKT_LAST_REFUSAL) || status == WKT_NOT_UTF8 || status == WKT_NOT_WHOLE;
}

/* The longest text of the database. */
#define MOST_BYTES (MaxAllocSize - VARHDRSZ)

/* Room in which nearly every answer fits: a text of n bytes is answered in some 2n + 8 without exponents. Room that isn't
 * filled costs nothing, and an answer that doesn't fit is made twice. */
static size_t room_for(size_t length) { return Min(2 * length + 16, MOST_BYTES); }

static inline wkt_status call_canonical(Call *call) {
    const Question *asked = call->asked;
    uint8_t *out = call->made ? (uint8_t *)VARDATA(call->made) : NULL;
    size_t end;
    return wkt_canonical(asked->utf8, asked->length, asked->places | WKT_WHOLE, out, call->room, &call->needed, &end);
}

/* The status of a call with so much room for its answer, which is left to be freed where it is one. */
static wkt_status canonical_in(Call *call, size_t room) {
    wkt_status status;
    call->room = room;
    call->made = palloc(VARHDRSZ + room);
    status = make_call(call_canonical, call, call->asked->length);
    if (status != WKT_OK) pfree(call->made);
    return status;
}

/* The canonical text of a whole text, if `answer` is asked for; false where it is refused. */
bool canonical_of(const Question *asked, text **answer) {
    Call call = {.asked = asked};
    wkt_status status =
        answer ? canonical_in(&call, room_for(asked->length)) : make_call(call_canonical, &call, asked->length);

    if (status == WKT_TOO_SMALL && !answer) return true; /* there was no room, and nothing else was wrong */
    if (status == WKT_TOO_SMALL && call.needed <= MOST_BYTES) status = canonical_in(&call, call.needed);
    if (status == WKT_OK && answer) {
        SET_VARSIZE(call.made, VARHDRSZ + call.needed);
        *answer = call.made;
        return true;
    }
    if (status == WKT_TOO_SMALL)
        ereport(ERROR, (errcode(ERRCODE_PROGRAM_LIMIT_EXCEEDED),
                        errmsg("the canonical text is too long: it has %zu bytes", call.needed)));
    if (!is_refusal(status)) fail_with(status);
    return false;
}

static inline wkt_status call_same(Call *call) {
    const Question *one = call->asked, *other = one + 1;
    return wkt_same(one->utf8, one->length, other->utf8, other->length, one->places | WKT_WHOLE, &call->same);
}

/* Whether two whole texts have one canonical text; false where one of them is refused. */
bool are_same(const Question asked[2], bool *same) {
    Call call = {.asked = asked};
    wkt_status status = make_call(call_same, &call, Max(asked[0].length, asked[1].length));

    if (status != WKT_OK && !is_refusal(status)) fail_with(status);
    *same = call.same;
    return status == WKT_OK;
}

/* A kind and a dimension as a header names them. */
char *header_of(uint32_t kind, uint32_t dimension) {
    return psprintf("%s%s%s", kinds[kind], dimension ? " " : "", dimensions[dimension]);
}

/* The front of a text: so many bytes, if it is long. What is stored elsewhere isn't fetched for it as a whole. */
text *front_of(Datum given, int32 length) {
    struct varlena *held = (struct varlena *)DatumGetPointer(given);
    bool is_elsewhere = VARATT_IS_EXTERNAL(held) || VARATT_IS_COMPRESSED(held);
    return (text *)(is_elsewhere ? PG_DETOAST_DATUM_SLICE(given, 0, length) : held);
}

static inline wkt_status call_infer(Call *call) {
    return wkt_infer(call->asked->utf8, call->asked->length, &call->kind, &call->dimension);
}

static inline wkt_status call_srid(Call *call) {
    return wkt_srid(call->asked->utf8, call->asked->length, &call->srid, &call->end);
}

/* A text up to its first parenthesis, before which header and SRID end. If its front has one no more is fetched. */
static Question question_of_front(Datum given) {
    text *front = front_of(given, LONGEST_FRONT);
    const char *opening = memchr(VARDATA_ANY(front), '(', VARSIZE_ANY_EXHDR(front));
    if (opening == NULL) return question_of_text(DatumGetTextPP(given), 0);
    return question_of(VARDATA_ANY(front), opening + 1 - VARDATA_ANY(front), 0);
}

/* The kind and the dimension that the header of a text names; false where it names none. */
bool header_from(Datum given, uint32_t *kind, uint32_t *dimension) {
    Question asked = question_of_front(given);
    Call call = {.asked = &asked};
    wkt_status status = make_call(call_infer, &call, asked.length);
    *kind = call.kind;
    *dimension = call.dimension;
    return status == WKT_OK;
}

/* The SRID in front of a text; false where there is none. */
bool srid_from(Datum given, uint32_t *srid) {
    Question asked = question_of_front(given);
    Call call = {.asked = &asked};
    wkt_status status = make_call(call_srid, &call, asked.length);
    if (status != WKT_OK) fail_with(status);
    *srid = call.srid;
    return call.end != 0;
}
