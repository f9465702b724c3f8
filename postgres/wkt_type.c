/* The type wkt. Its bytes are those of a canonical text, and its modifier is the places. */
#include "wkt_pg.h"

#include <ctype.h>

#include "libpq/pqformat.h"
#include "miscadmin.h"
#include "nodes/nodeFuncs.h"
#include "nodes/supportnodes.h"
#include "utils/array.h"
#include "utils/builtins.h"
#include "utils/fmgrprotos.h"
#if PG_VERSION_NUM >= 160000
#define CONTEXT(fcinfo) ((fcinfo)->context)
#else
#define CONTEXT(fcinfo) NULL
#endif

/* The places of a modifier; -1 is none. */
static uint32_t places_of_modifier(int32 modifier) {
    return modifier < 0 ? TYPE_PLACES : places_of(modifier, TYPE_PLACES);
}

/* The exponent at `at`, which is left at its last byte; 0 where there is none, or where no text has it. */
static int exponent_at(const Question *asked, size_t *at) {
    size_t i = *at + 1;
    bool is_minus = i < asked->length && asked->utf8[i] == '-';
    int exponent = 0;
    if (!(asked->places & WKT_EXPONENTS) || (asked->utf8[*at] | 0x20) != 'e') return 0;
    if (is_minus || (i < asked->length && asked->utf8[i] == '+')) i++;
    for (; i < asked->length && isdigit(asked->utf8[i]) && exponent < 1000; i++) {
        exponent = 10 * exponent + (asked->utf8[i] - '0');
        *at = i;
    }
    return is_minus ? -exponent : exponent;
}

/* How many places the numbers of a text have, without zeros at their ends, where one may be too large for more; else 18. */
static uint32_t places_needed(const Question *asked) {
    int needed = 0, digits = 0, behind = 0,
        zeros = 0; /* of a number: all, those behind the point, the zeros at its end */
    bool is_large = false, is_behind = false;
    for (size_t i = 0; i < asked->length; i++) {
        CHECK_FOR_INTERRUPTS();
        if (isdigit(asked->utf8[i])) {
            digits++;
            behind += is_behind;
            zeros = asked->utf8[i] == '0' ? zeros + 1 : 0;
        } else if (asked->utf8[i] == '.')
            is_behind = true;
        else {
            int exponent = digits ? exponent_at(asked, &i) : 0;
            if (zeros < digits) needed = Max(needed, behind - zeros - exponent);
            if (digits - behind + exponent > 20) is_large = true;
            digits = behind = zeros = 0;
            is_behind = false;
        }
    }
    return is_large ? (uint32_t)Min(needed, TYPE_PLACES) : TYPE_PLACES;
}

/* The value of a text: one that any places up to those asked for read, since more leave less room before the point. So each
 * value of wkt(n) is one of wkt, and a column of either takes what the other holds, as when a dump is restored. */
bool has_value(Question *asked, text **answer) {
    uint32_t places = asked->places % WKT_WHOLE, needed;
    if (canonical_of(asked, answer)) return true;
    needed = places_needed(asked);
    if (needed >= places) return false;
    asked->places -= places - needed;
    if (canonical_of(asked, answer)) return true;
    asked->places += places - needed;
    return false;
}

static Datum value_of(Node *context, Question asked) {
    text *answer;
    if (!has_value(&asked, &answer)) return refuse(context, &asked);
    PG_RETURN_TEXT_P(answer);
}

PG_FUNCTION_INFO_V1(pg_wkt_in);
Datum pg_wkt_in(PG_FUNCTION_ARGS) {
    char *given = PG_GETARG_CSTRING(0);
    return value_of(CONTEXT(fcinfo), question_of(given, strlen(given), places_of_modifier(PG_GETARG_INT32(2))));
}

PG_FUNCTION_INFO_V1(pg_wkt_out);
Datum pg_wkt_out(PG_FUNCTION_ARGS) { PG_RETURN_CSTRING(TextDatumGetCString(PG_GETARG_DATUM(0))); }

PG_FUNCTION_INFO_V1(pg_wkt_recv);
Datum pg_wkt_recv(PG_FUNCTION_ARGS) {
    StringInfo message = (StringInfo)PG_GETARG_POINTER(0);
    int length;
    char *given = pq_getmsgtext(message, message->len - message->cursor, &length);
    return value_of(NULL, question_of(given, length, places_of_modifier(PG_GETARG_INT32(2))));
}

PG_FUNCTION_INFO_V1(pg_wkt_send);
Datum pg_wkt_send(PG_FUNCTION_ARGS) {
    text *held = PG_GETARG_TEXT_PP(0);
    StringInfoData message;
    pq_begintypsend(&message);
    pq_sendtext(&message, VARDATA_ANY(held), VARSIZE_ANY_EXHDR(held));
    PG_RETURN_BYTEA_P(pq_endtypsend(&message));
}

PG_FUNCTION_INFO_V1(pg_wkt_typmod_in);
Datum pg_wkt_typmod_in(PG_FUNCTION_ARGS) {
    int n;
    int32 *given = ArrayGetIntegerTypmods(PG_GETARG_ARRAYTYPE_P(0), &n);
    if (n != 1)
        ereport(ERROR, (errcode(ERRCODE_INVALID_PARAMETER_VALUE), errmsg("wkt takes one modifier, the places")));
    PG_RETURN_INT32(places_of(given[0], TYPE_PLACES));
}

PG_FUNCTION_INFO_V1(pg_wkt_typmod_out);
Datum pg_wkt_typmod_out(PG_FUNCTION_ARGS) { PG_RETURN_CSTRING(psprintf("(%d)", PG_GETARG_INT32(0))); }

/* A text as a wkt. */
PG_FUNCTION_INFO_V1(pg_wkt_cast);
Datum pg_wkt_cast(PG_FUNCTION_ARGS) {
    return value_of(NULL, question_of_text(PG_GETARG_TEXT_PP(0), places_of_modifier(PG_GETARG_INT32(1))));
}

/* A wkt under another modifier: it stays as it is, or is refused, if a number has more digits behind its point than that has
 * places. It isn't read for that. */
PG_FUNCTION_INFO_V1(pg_wkt_recast);
Datum pg_wkt_recast(PG_FUNCTION_ARGS) {
    text *held = PG_GETARG_TEXT_PP(0);
    uint32_t places = places_of_modifier(PG_GETARG_INT32(1));
    const char *at = VARDATA_ANY(held), *end = at + VARSIZE_ANY_EXHDR(held);
    while ((at = memchr(at, '.', end - at)) != NULL) {
        uint32_t digits = 0;
        CHECK_FOR_INTERRUPTS();
        while (++at < end && isdigit((unsigned char)*at)) digits++;
        if (digits > places) return value_of(NULL, question_of_text(held, places));
    }
    PG_RETURN_TEXT_P(held);
}

/* The value of a text, as by a cast; null where it is refused. */
PG_FUNCTION_INFO_V1(pg_wkt_or_null);
Datum pg_wkt_or_null(PG_FUNCTION_ARGS) {
    Question asked = question_of_text(PG_GETARG_TEXT_PP(0), asked_of(fcinfo, 1, TYPE_PLACES));
    text *answer;
    if (!has_value(&asked, &answer)) PG_RETURN_NULL();
    PG_RETURN_TEXT_P(answer);
}

/* A cast to places that each value of its operand has is that operand, under another modifier. A call may have null as its
 * third argument, and is null then. */
PG_FUNCTION_INFO_V1(pg_wkt_support);
Datum pg_wkt_support(PG_FUNCTION_ARGS) {
    Node *request = (Node *)PG_GETARG_POINTER(0), *answer = NULL;

    if (IsA(request, SupportRequestSimplify)) {
        List *given = ((SupportRequestSimplify *)request)->fcall->args;
        Node *value = linitial(given), *modifier = lsecond(given);
        if (IsA(modifier, Const) && !((Const *)modifier)->constisnull && IsA(lthird(given), Const)) {
            int32 from = exprTypmod(value), to = DatumGetInt32(((Const *)modifier)->constvalue);
            if (to == TYPE_PLACES || (from >= 0 && from <= to && to < TYPE_PLACES))
                answer = relabel_to_typmod(value, to);
        }
    }
    PG_RETURN_POINTER(answer);
}

PG_FUNCTION_INFO_V1(pg_wkt_smaller);
Datum pg_wkt_smaller(PG_FUNCTION_ARGS) {
    Datum one = PG_GETARG_DATUM(0), other = PG_GETARG_DATUM(1);
    PG_RETURN_DATUM(DatumGetInt32(DirectFunctionCall2(byteacmp, one, other)) <= 0 ? one : other);
}

PG_FUNCTION_INFO_V1(pg_wkt_larger);
Datum pg_wkt_larger(PG_FUNCTION_ARGS) {
    Datum one = PG_GETARG_DATUM(0), other = PG_GETARG_DATUM(1);
    PG_RETURN_DATUM(DatumGetInt32(DirectFunctionCall2(byteacmp, one, other)) >= 0 ? one : other);
}
