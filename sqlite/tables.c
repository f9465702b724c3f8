/* Table-valued functions: the points, the parts and the bounds of a text. A text that is refused is an error, and a null has
 * no rows. Numbers are doubles, and beside them the exact texts, since SQLite has no decimals. */
#include "wkt_sqlite.h"
SQLITE_EXTENSION_INIT3

#define SCAN_GROW(old, size) sqlite3_realloc64(old, size)
#include "../postgres/doubles.h"
#include "../postgres/parts.h"

int points_in(const char *canonical, size_t length) {
    Scanner scan = scan_over(canonical, length);
    int count = scan_count_points(&scan);
    sqlite3_free(scan.path);
    return scan.failed ? -1 : count;
}

int parts_in(const char *canonical, size_t length) {
    Scanner scan = scan_over_parts(canonical, length);
    int count = scan_count_parts(&scan);
    sqlite3_free(scan.path);
    return scan.failed ? -1 : count;
}

typedef struct Cursor {
    sqlite3_vtab_cursor base;
    char *text;                  /* the canonical text */
    sqlite3_value *arguments[2]; /* what the two hidden columns have */
    Scanner scan;
    sqlite3_int64 row;
    int has_row;
    Span numbers[8];
    Part part;
} Cursor;

/* A function: its columns, of which the last two are its arguments, and what its rows are. */
typedef struct Function {
    const char *name, *columns;
    int hidden; /* the number of the first argument among the columns */
    Scanner (*begin)(const char *, size_t);
    bool (*next)(Cursor *);
    void (*column)(Cursor *, sqlite3_context *, int);
} Function;

typedef struct Table {
    sqlite3_vtab base;
    const Function *function;
} Table;

/* A number as a double or as its text; null where there is none. */
static void put_number(sqlite3_context *context, Span number, bool is_text, Rounding rounding) {
    if (number.length == 0) return;
    if (is_text)
        sqlite3_result_text64(context, number.at, number.length, SQLITE_TRANSIENT, SQLITE_UTF8);
    else
        sqlite3_result_double(context, double_of(number.at, number.length, rounding));
}

void put_made(sqlite3_context *context, sqlite3_str *made) {
    int status = sqlite3_str_errcode(made), length = sqlite3_str_length(made);
    char *said = sqlite3_str_finish(made);
    if (status == SQLITE_OK)
        sqlite3_result_text(context, said, length, sqlite3_free);
    else {
        sqlite3_free(said);
        sqlite3_result_error_code(context, status);
    }
}

/* The path as an array of JSON. */
static void put_path(Cursor *cursor, sqlite3_context *context) {
    sqlite3_str *made = sqlite3_str_new(sqlite3_context_db_handle(context));
    sqlite3_str_appendchar(made, 1, '[');
    for (size_t i = 0; i < cursor->scan.depth; i++) sqlite3_str_appendf(made, i ? ",%d" : "%d", cursor->scan.path[i]);
    sqlite3_str_appendchar(made, 1, ']');
    put_made(context, made);
}

static bool next_point(Cursor *cursor) { return scan_point(&cursor->scan, cursor->numbers); }

static void point_column(Cursor *cursor, sqlite3_context *context, int column) {
    if (column == 0)
        put_path(cursor, context);
    else
        put_number(context, cursor->numbers[(column - 1) % 4], column > 4, ROUND_NEAREST);
}

static bool next_part(Cursor *cursor) { return scan_part(&cursor->scan, &cursor->part); }

static void part_column(Cursor *cursor, sqlite3_context *context, int column) {
    const Part *part = &cursor->part;
    sqlite3_str *made;
    if (column == 0) {
        put_path(cursor, context);
        return;
    }
    made = sqlite3_str_new(sqlite3_context_db_handle(context));
    sqlite3_str_appendall(made, scan_kinds[part->kind]);
    if (cursor->scan.dimension) sqlite3_str_appendf(made, " %s", scan_dimensions[cursor->scan.dimension]);
    if (column == 2 && *part->body.at == 'E') sqlite3_str_appendchar(made, 1, ' ');
    if (column == 2) sqlite3_str_append(made, part->body.at, (int)part->body.length);
    put_made(context, made);
}

/* One row. */
static bool next_bounds(Cursor *cursor) {
    if (cursor->row > 1) return false;
    scan_bounds(&cursor->scan, cursor->numbers, cursor->numbers + 4);
    return true;
}

static void bounds_column(Cursor *cursor, sqlite3_context *context, int column) {
    static const int numbers[8] = {0, 1, 4, 5, 2, 6, 3, 7};
    int number = numbers[column % 8];
    put_number(context, cursor->numbers[number], column >= 8, number < 4 ? ROUND_DOWN : ROUND_UP);
}

/* Their types have numbers compared as numbers, also with a text. */
static const Function functions[] = {
    {"wkt_points", "path, x REAL, y REAL, z REAL, m REAL, x_text TEXT, y_text TEXT, z_text TEXT, m_text TEXT", 9,
     scan_over, next_point, point_column},
    {"wkt_each", "path, kind, part", 3, scan_over_parts, next_part, part_column},
    {"wkt_bounds",
     "min_x REAL, min_y REAL, max_x REAL, max_y REAL, min_z REAL, max_z REAL, min_m REAL, max_m REAL, min_x_text TEXT, "
     "min_y_text TEXT, max_x_text TEXT, max_y_text TEXT, min_z_text TEXT, max_z_text TEXT, min_m_text TEXT, max_m_text "
     "TEXT",
     16, scan_over, next_bounds, bounds_column},
};

static int connect(sqlite3 *db, void *function, int count, const char *const *words, sqlite3_vtab **table,
                   char **error) {
    char *declared =
        sqlite3_mprintf("CREATE TABLE t(%s, geometry HIDDEN, places HIDDEN)", ((const Function *)function)->columns);
    int status = declared ? sqlite3_declare_vtab(db, declared) : SQLITE_NOMEM;
    Table *made = status == SQLITE_OK ? sqlite3_malloc64(sizeof *made) : NULL;
    (void)count, (void)words, (void)error;
    sqlite3_free(declared);
    if (status != SQLITE_OK) return status;
    if (!made) return SQLITE_NOMEM;
    memset(made, 0, sizeof *made);
    made->function = function;
    *table = &made->base;
    return sqlite3_vtab_config(db, SQLITE_VTAB_INNOCUOUS);
}

static int disconnect(sqlite3_vtab *table) {
    sqlite3_free(table);
    return SQLITE_OK;
}

/* The arguments come as values that the two hidden columns have. */
static int best_index(sqlite3_vtab *table, sqlite3_index_info *info) {
    int hidden = ((Table *)table)->function->hidden, at[2] = {-1, -1};
    for (int i = 0; i < info->nConstraint; i++) {
        int argument = info->aConstraint[i].iColumn - hidden;
        if (argument < 0 || info->aConstraint[i].op != SQLITE_INDEX_CONSTRAINT_EQ) continue;
        if (!info->aConstraint[i].usable) return SQLITE_CONSTRAINT;
        at[argument] = i;
    }
    for (int argument = 0, given = 0; argument < 2; argument++) {
        if (at[argument] < 0) continue;
        info->aConstraintUsage[at[argument]].argvIndex = ++given;
        info->aConstraintUsage[at[argument]].omit = 1;
        info->idxNum |= 1 << argument;
    }
    /* Without a text there are no rows, so that way costs what it did: more than any other. */
    if (!(info->idxNum & 1)) return SQLITE_OK;
    info->estimatedCost = 1000;
    info->estimatedRows = 100;
    return SQLITE_OK;
}

static int open_cursor(sqlite3_vtab *table, sqlite3_vtab_cursor **cursor) {
    Cursor *made = sqlite3_malloc64(sizeof *made);
    (void)table;
    if (!made) return SQLITE_NOMEM;
    memset(made, 0, sizeof *made);
    *cursor = &made->base;
    return SQLITE_OK;
}

static void forget(Cursor *cursor) {
    sqlite3_free(cursor->text);
    sqlite3_free(cursor->scan.path);
    for (int i = 0; i < 2; i++) {
        sqlite3_value_free(cursor->arguments[i]);
        cursor->arguments[i] = NULL;
    }
    cursor->text = NULL;
    cursor->scan = scan_over("", 0);
    cursor->has_row = 0;
    cursor->row = 0;
}

static int close_cursor(sqlite3_vtab_cursor *cursor) {
    forget((Cursor *)cursor);
    sqlite3_free(cursor);
    return SQLITE_OK;
}

static int next(sqlite3_vtab_cursor *base) {
    Cursor *cursor = (Cursor *)base;
    cursor->row++;
    cursor->has_row = ((Table *)base->pVtab)->function->next(cursor);
    return cursor->scan.failed ? SQLITE_NOMEM : SQLITE_OK;
}

/* SQLite may compare a hidden column with its argument once more, and a query may ask for it. */
static int keeps(Cursor *cursor, int argument, sqlite3_value *value) {
    cursor->arguments[argument] = sqlite3_value_dup(value);
    return cursor->arguments[argument] != NULL;
}

static int filter(sqlite3_vtab_cursor *base, int given, const char *name, int count, sqlite3_value **values) {
    Cursor *cursor = (Cursor *)base;
    Question asked;
    size_t length;
    wkt_status status;
    (void)name;
    forget(cursor);
    if (!(given & 1)) return SQLITE_OK;
    for (int i = 0; i < count; i++)
        if (sqlite3_value_type(values[i]) == SQLITE_NULL) return SQLITE_OK;
    /* Before it is read as a number, which it stays. */
    if (count > 1 && !keeps(cursor, 1, values[1])) return SQLITE_NOMEM;
    status = canonical_of(values[0], asked_of(count, values, 1), &asked, &cursor->text, &length);
    if (status != WKT_OK) {
        cursor->text = NULL;
        if (status == WKT_NO_MEMORY) return SQLITE_NOMEM;
        if (status == WKT_TOO_SMALL) return SQLITE_TOOBIG;
        sqlite3_free(base->pVtab->zErrMsg);
        base->pVtab->zErrMsg = error_of(&asked, status);
        return base->pVtab->zErrMsg ? SQLITE_ERROR : SQLITE_NOMEM;
    }
    if (!keeps(cursor, 0, values[0])) return SQLITE_NOMEM;
    cursor->scan = ((Table *)base->pVtab)->function->begin(cursor->text, length);
    return next(base);
}

static int at_end(sqlite3_vtab_cursor *cursor) { return !((Cursor *)cursor)->has_row; }

static int column_of(sqlite3_vtab_cursor *base, sqlite3_context *context, int column) {
    const Function *function = ((Table *)base->pVtab)->function;
    Cursor *cursor = (Cursor *)base;
    if (column < function->hidden)
        function->column(cursor, context, column);
    else if (cursor->arguments[column - function->hidden])
        sqlite3_result_value(context, cursor->arguments[column - function->hidden]);
    return SQLITE_OK;
}

static int rowid_of(sqlite3_vtab_cursor *cursor, sqlite3_int64 *row) {
    *row = ((Cursor *)cursor)->row;
    return SQLITE_OK;
}

int create_tables(sqlite3 *db) {
    /* Without xCreate they are functions alone. */
    static const sqlite3_module module = {.xConnect = connect,
                                          .xBestIndex = best_index,
                                          .xDisconnect = disconnect,
                                          .xOpen = open_cursor,
                                          .xClose = close_cursor,
                                          .xFilter = filter,
                                          .xNext = next,
                                          .xEof = at_end,
                                          .xColumn = column_of,
                                          .xRowid = rowid_of};
    int status = SQLITE_OK;
    for (size_t i = 0; status == SQLITE_OK && i < sizeof functions / sizeof *functions; i++)
        status = sqlite3_create_module_v2(db, functions[i].name, &module, (void *)&functions[i], NULL);
    return status;
}
