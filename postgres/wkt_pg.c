/* The functions over text. Each takes a text whole: white space may follow the geometry, and nothing else.
 *
 * Their names in C begin with pg_, since the library's own begin with wkt_. */
#include "wkt_pg.h"

#include "utils/builtins.h"

PG_MODULE_MAGIC;

/* On another processor than the library is built for the module isn't loaded, and the session goes on. */
void _PG_init(void);
void _PG_init(void) {
    if (!wkt_supported())
        ereport(ERROR, (errcode(ERRCODE_FEATURE_NOT_SUPPORTED), errmsg("wkt: the processor is not supported"),
                        errdetail("The library is built for x86-64 processors with SSE4.2 and POPCNT.")));
}

PG_FUNCTION_INFO_V1(pg_wkt_canonical);
Datum pg_wkt_canonical(PG_FUNCTION_ARGS) {
    Question asked = question_of_text(PG_GETARG_TEXT_PP(0), asked_of(fcinfo, 1, MOST_PLACES));
    text *answer;
    if (!canonical_of(&asked, &answer)) return refuse(NULL, &asked);
    PG_RETURN_TEXT_P(answer);
}

PG_FUNCTION_INFO_V1(pg_wkt_reads);
Datum pg_wkt_reads(PG_FUNCTION_ARGS) {
    Question asked = question_of_text(PG_GETARG_TEXT_PP(0), asked_of(fcinfo, 1, MOST_PLACES));
    PG_RETURN_BOOL(canonical_of(&asked, NULL));
}

/* Of a text and of a value. */
PG_FUNCTION_INFO_V1(pg_wkt_kind);
Datum pg_wkt_kind(PG_FUNCTION_ARGS) {
    uint32_t kind, dimension;
    if (!header_from(PG_GETARG_DATUM(0), &kind, &dimension)) PG_RETURN_NULL();
    PG_RETURN_TEXT_P(cstring_to_text(header_of(kind, dimension)));
}

PG_FUNCTION_INFO_V1(pg_wkt_dimension);
Datum pg_wkt_dimension(PG_FUNCTION_ARGS) {
    static const char *const names[] = WKT_DIMENSIONS;
    uint32_t kind, dimension;
    if (!header_from(PG_GETARG_DATUM(0), &kind, &dimension)) PG_RETURN_NULL();
    PG_RETURN_TEXT_P(cstring_to_text(names[dimension]));
}

/* Null where none stands in front. */
PG_FUNCTION_INFO_V1(pg_wkt_srid);
Datum pg_wkt_srid(PG_FUNCTION_ARGS) {
    uint32_t srid;
    if (!srid_from(PG_GETARG_DATUM(0), &srid)) PG_RETURN_NULL();
    PG_RETURN_INT32((int32)srid); /* of at most nine digits */
}

PG_FUNCTION_INFO_V1(pg_wkt_version);
Datum pg_wkt_version(PG_FUNCTION_ARGS) { PG_RETURN_TEXT_P(cstring_to_text(wkt_version())); }
