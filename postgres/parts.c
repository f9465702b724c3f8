/* What a value holds: its points, its parts, its bounds. Numbers are exact, as numeric, or doubles. */
#include "wkt_pg.h"

#include "catalog/pg_type.h"
#include "funcapi.h"
#include "miscadmin.h"
#include "utils/array.h"
#include "utils/builtins.h"
#include "utils/fmgrprotos.h"
#include "utils/geo_decls.h"
#include "utils/memutils.h"

#include "doubles.h"

#define SCAN_GROW(old, size) ((old) ? repalloc_huge(old, size) : palloc(size))
#define SCAN_PAUSE() CHECK_FOR_INTERRUPTS()
#include "parts.h"

/* The most digits of a number are 39, and it may have a sign and a point. */
#define NUMBER_SIZE 64

static Datum numeric_of(Span number) {
    char digits[NUMBER_SIZE];
    size_t length = Min(number.length, NUMBER_SIZE - 1);
    memcpy(digits, number.at, length);
    digits[length] = 0;
    return DirectFunctionCall3(numeric_in, CStringGetDatum(digits), ObjectIdGetDatum(InvalidOid), Int32GetDatum(-1));
}

/* A number as a column, which is null where there is none. */
typedef Datum (*Column)(Span number, Rounding rounding);

static Datum as_numeric(Span number, Rounding rounding) {
    (void)rounding;
    return numeric_of(number);
}

static Datum as_float8(Span number, Rounding rounding) {
    return Float8GetDatum(double_of(number.at, number.length, rounding));
}

static void put_number(Datum *row, bool *nulls, int column, Span number, Column as, Rounding rounding) {
    nulls[column] = number.length == 0;
    row[column] = nulls[column] ? (Datum)0 : as(number, rounding);
}

static Datum path_of(const Scanner *scan) {
    size_t size = ARR_OVERHEAD_NONULLS(1) + scan->depth * sizeof(int32);
    ArrayType *path;
    if (scan->depth == 0) return PointerGetDatum(construct_empty_array(INT4OID));
    path = palloc(size);
    SET_VARSIZE(path, size);
    path->ndim = 1;
    path->dataoffset = 0;
    path->elemtype = INT4OID;
    ARR_DIMS(path)[0] = (int)scan->depth;
    ARR_LBOUND(path)[0] = 1;
    memcpy(ARR_DATA_PTR(path), scan->path, scan->depth * sizeof(int32));
    return PointerGetDatum(path);
}

static TupleDesc row_type_of(FunctionCallInfo fcinfo) {
    TupleDesc type;
    if (get_call_result_type(fcinfo, NULL, &type) != TYPEFUNC_COMPOSITE) elog(ERROR, "wkt: no row is asked for");
    return BlessTupleDesc(type);
}

/* The one row that a function returns. Its type is looked up once for a place in a query. */
Datum row_of(FunctionCallInfo fcinfo, Datum *row, bool *nulls) {
    FmgrInfo *function = fcinfo->flinfo;
    if (function->fn_extra == NULL) {
        MemoryContext before = MemoryContextSwitchTo(function->fn_mcxt);
        function->fn_extra = row_type_of(fcinfo);
        MemoryContextSwitchTo(before);
    }
    return HeapTupleGetDatum(heap_form_tuple(function->fn_extra, row, nulls));
}

/* What the rows of a call have in common. The first call begins a scan over the argument. */
static FuncCallContext *rows_of(FunctionCallInfo fcinfo, Scanner (*begin)(const char *, size_t)) {
    if (SRF_IS_FIRSTCALL()) {
        FuncCallContext *rows = SRF_FIRSTCALL_INIT();
        MemoryContext before = MemoryContextSwitchTo(rows->multi_call_memory_ctx);
        text *held = PG_GETARG_TEXT_PP(0); /* fetched into that memory, if it has to be */
        Scanner *scan = palloc(sizeof *scan);
        *scan = begin(VARDATA_ANY(held), VARSIZE_ANY_EXHDR(held));
        rows->user_fctx = scan;
        rows->tuple_desc = row_type_of(fcinfo);
        MemoryContextSwitchTo(before);
    }
    return SRF_PERCALL_SETUP();
}

static Datum points(FunctionCallInfo fcinfo, Column as) {
    FuncCallContext *rows = rows_of(fcinfo, scan_over);
    MemoryContext before = MemoryContextSwitchTo(rows->multi_call_memory_ctx);
    Span numbers[4];
    bool found = scan_point(rows->user_fctx, numbers), nulls[5] = {false};
    Datum row[5];
    MemoryContextSwitchTo(before);
    if (!found) SRF_RETURN_DONE(rows);
    row[0] = path_of(rows->user_fctx);
    for (int i = 0; i < 4; i++) put_number(row, nulls, 1 + i, numbers[i], as, ROUND_NEAREST);
    SRF_RETURN_NEXT(rows, HeapTupleGetDatum(heap_form_tuple(rows->tuple_desc, row, nulls)));
}

PG_FUNCTION_INFO_V1(pg_wkt_points);
Datum pg_wkt_points(PG_FUNCTION_ARGS) { return points(fcinfo, as_numeric); }

PG_FUNCTION_INFO_V1(pg_wkt_points_float8);
Datum pg_wkt_points_float8(PG_FUNCTION_ARGS) { return points(fcinfo, as_float8); }

/* The text of a part: its header, and its body. */
static text *text_of_part(const char *header, Span body) {
    size_t length = strlen(header), space = *body.at == 'E';
    text *made = palloc(VARHDRSZ + length + space + body.length);
    SET_VARSIZE(made, VARHDRSZ + length + space + body.length);
    memcpy(VARDATA(made), header, length);
    if (space) VARDATA(made)[length] = ' ';
    memcpy(VARDATA(made) + length + space, body.at, body.length);
    return made;
}

PG_FUNCTION_INFO_V1(pg_wkt_each);
Datum pg_wkt_each(PG_FUNCTION_ARGS) {
    FuncCallContext *rows = rows_of(fcinfo, scan_over_parts);
    MemoryContext before = MemoryContextSwitchTo(rows->multi_call_memory_ctx);
    Scanner *scan = rows->user_fctx;
    Part part;
    bool found = scan_part(scan, &part), nulls[3] = {false};
    char *header;
    Datum row[3];
    MemoryContextSwitchTo(before);
    if (!found) SRF_RETURN_DONE(rows);
    header = header_of(part.kind, scan->dimension);
    row[0] = path_of(scan);
    row[1] = CStringGetTextDatum(header);
    row[2] = PointerGetDatum(text_of_part(header, part.body));
    SRF_RETURN_NEXT(rows, HeapTupleGetDatum(heap_form_tuple(rows->tuple_desc, row, nulls)));
}

static Scanner scan_value(text *held) { return scan_over(VARDATA_ANY(held), VARSIZE_ANY_EXHDR(held)); }

PG_FUNCTION_INFO_V1(pg_wkt_num_points);
Datum pg_wkt_num_points(PG_FUNCTION_ARGS) {
    Scanner scan = scan_value(PG_GETARG_TEXT_PP(0));
    PG_RETURN_INT32(scan_count_points(&scan));
}

PG_FUNCTION_INFO_V1(pg_wkt_num_parts);
Datum pg_wkt_num_parts(PG_FUNCTION_ARGS) {
    text *held = PG_GETARG_TEXT_PP(0);
    Scanner scan = scan_over_parts(VARDATA_ANY(held), VARSIZE_ANY_EXHDR(held));
    PG_RETURN_INT32(scan_count_parts(&scan));
}

static Datum bounds(FunctionCallInfo fcinfo, Column as) {
    static const int columns[4] = {0, 1, 4, 6};
    Scanner scan = scan_value(PG_GETARG_TEXT_PP(0));
    Span least[4], greatest[4];
    Datum row[8];
    bool nulls[8];
    scan_bounds(&scan, least, greatest);
    for (int i = 0; i < 4; i++) {
        put_number(row, nulls, columns[i], least[i], as, ROUND_DOWN);
        put_number(row, nulls, columns[i] + (i < 2 ? 2 : 1), greatest[i], as, ROUND_UP);
    }
    return row_of(fcinfo, row, nulls);
}

PG_FUNCTION_INFO_V1(pg_wkt_bounds);
Datum pg_wkt_bounds(PG_FUNCTION_ARGS) { return bounds(fcinfo, as_numeric); }

PG_FUNCTION_INFO_V1(pg_wkt_bounds_float8);
Datum pg_wkt_bounds_float8(PG_FUNCTION_ARGS) { return bounds(fcinfo, as_float8); }

/* The bounds of x and y; null where there is no point. */
PG_FUNCTION_INFO_V1(pg_wkt_box);
Datum pg_wkt_box(PG_FUNCTION_ARGS) {
    Scanner scan = scan_value(PG_GETARG_TEXT_PP(0));
    Span least[4], greatest[4];
    BOX *box;
    scan_bounds(&scan, least, greatest);
    if (least[0].length == 0) PG_RETURN_NULL();
    box = palloc(sizeof *box);
    box->low.x = double_of(least[0].at, least[0].length, ROUND_DOWN);
    box->low.y = double_of(least[1].at, least[1].length, ROUND_DOWN);
    box->high.x = double_of(greatest[0].at, greatest[0].length, ROUND_UP);
    box->high.y = double_of(greatest[1].at, greatest[1].length, ROUND_UP);
    PG_RETURN_BOX_P(box);
}

/* A number of a point; null where it has none. */
static Datum coordinate(FunctionCallInfo fcinfo, int axis) {
    Scanner scan = scan_value(PG_GETARG_TEXT_PP(0));
    Span numbers[4];
    scan_header(&scan);
    if (scan.kind != WKT_POINT)
        ereport(ERROR, (errcode(ERRCODE_INVALID_PARAMETER_VALUE),
                        errmsg("a %s has no single x, y, z and m", scan_kinds[scan.kind]),
                        errhint("wkt_points_float8 has a row for each point.")));
    if (!scan_point(&scan, numbers) || numbers[axis].length == 0) PG_RETURN_NULL();
    return as_float8(numbers[axis], ROUND_NEAREST);
}

#define IS_COORDINATE(name, axis) \
    PG_FUNCTION_INFO_V1(name); \
    Datum name(PG_FUNCTION_ARGS) { return coordinate(fcinfo, axis); }
IS_COORDINATE(pg_wkt_x, 0)
IS_COORDINATE(pg_wkt_y, 1)
IS_COORDINATE(pg_wkt_z, 2)
IS_COORDINATE(pg_wkt_m, 3)
