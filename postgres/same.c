/* wkt_same. A long argument that stays the same from row to row, as a constant does, is read once. */
#include "wkt_pg.h"

#include "nodes/primnodes.h"
#include "optimizer/optimizer.h"

/* Below so many bytes reading again takes less time than comparing with what is known. */
#define LONG_TEXT 256

/* The last text of an argument that depends on no row, with its canonical text; key is NULL before the first. */
typedef struct Known {
    bool is_fixed;
    uint32_t places;
    size_t length;
    char *given;
    text *key;
} Known;

/* Of both arguments, kept between the calls of one place in a query. */
static Known *known_of(FmgrInfo *function) {
    if (function->fn_extra == NULL) {
        Known *known = MemoryContextAllocZero(function->fn_mcxt, 2 * sizeof(Known));
        if (function->fn_expr && IsA(function->fn_expr, FuncExpr))
            for (int i = 0; i < 2; i++)
                known[i].is_fixed = !contain_var_clause(list_nth(((FuncExpr *)function->fn_expr)->args, i));
        function->fn_extra = known;
    }
    return function->fn_extra;
}

static void keep(Known *known, MemoryContext where, const Question *asked, const text *key) {
    if (known->key) {
        pfree(known->given);
        pfree(known->key);
        known->key = NULL;
    }
    known->given = MemoryContextAlloc(where, asked->length + 1);
    memcpy(known->given, asked->given, asked->length);
    known->length = asked->length;
    known->places = asked->places;
    known->key = MemoryContextAlloc(where, VARSIZE(key));
    memcpy(known->key, key, VARSIZE(key));
}

/* The canonical text of an argument; NULL where it is refused. What is known is compared byte by byte: a parameter may
 * change between calls. */
static text *key_of(Known *known, MemoryContext where, Question *asked) {
    text *key;
    if (known->key && known->places == asked->places && known->length == asked->length &&
        memcmp(known->given, asked->given, asked->length) == 0)
        return known->key;
    if (!canonical_of(asked, &key)) return NULL;
    if (known->is_fixed) keep(known, where, asked, key);
    return key;
}

PG_FUNCTION_INFO_V1(pg_wkt_same);
Datum pg_wkt_same(PG_FUNCTION_ARGS) {
    uint32_t places = asked_of(fcinfo, 2, MOST_PLACES);
    Question asked[2] = {question_of_text(PG_GETARG_TEXT_PP(0), places),
                         question_of_text(PG_GETARG_TEXT_PP(1), places)};
    Known *known = known_of(fcinfo->flinfo);
    text *keys[2];
    bool keeps = false, same;

    for (int i = 0; i < 2; i++) keeps = keeps || (known[i].is_fixed && asked[i].length >= LONG_TEXT);
    if (!keeps && are_same(asked, &same)) PG_RETURN_BOOL(same);
    for (int i = 0; i < 2; i++) {
        keys[i] = key_of(&known[i], fcinfo->flinfo->fn_mcxt, &asked[i]);
        if (keys[i] == NULL) return refuse(NULL, &asked[i]);
    }
    PG_RETURN_BOOL(VARSIZE(keys[0]) == VARSIZE(keys[1]) && memcmp(keys[0], keys[1], VARSIZE(keys[0])) == 0);
}
