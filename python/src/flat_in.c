/* The canonical texts of Arrays, row by row, and of ColumnArrays, block by block. Rows whose arrays are as this package
 * gives them are taken here; of each other Python says what it is worth. */
#include "fast.h"

/* A buffer of 64-bit integers in one piece, copied behind what a room has: 1. 0: it is something else. */
static int copied_in(PyObject *from, const char *formats, Room *to) {
    Py_buffer view;
    int known;
    if (!PyObject_CheckBuffer(from)) return 0;
    if (PyObject_GetBuffer(from, &view, PyBUF_FORMAT | PyBUF_C_CONTIGUOUS) < 0) {
        PyErr_Clear();
        return 0;
    }
    known = view.ndim == 1 && view.itemsize == 8 && view.format != NULL && strlen(view.format) == 1 &&
            strchr(formats, view.format[0]) != NULL;
    if (known && room_holds(to, (size_t)view.len / 8) < 0) known = (PyErr_NoMemory(), -1);
    if (known > 0 && view.len > 0) {
        memcpy((int64_t *)to->items + to->used, view.buf, (size_t)view.len);
        to->used += (size_t)view.len / 8;
    }
    PyBuffer_Release(&view);
    return known;
}

/* The number of a name; -1 where it is none of them. */
static int index_of(PyObject *names, PyObject *name) {
    if (!PyUnicode_CheckExact(name)) return -1;
    for (Py_ssize_t i = 0; i < PyTuple_Size(names); i++) {
        PyObject *one = PyTuple_GetItem(names, i);
        if (one == name || PyUnicode_Compare(one, name) == 0) return (int)i;
    }
    return -1;
}

/* Copies of the arrays of a row, so that nothing changes them during the call. Rows of points share the arrays of rings and
 * polygons: such a copy is that of the next row too, unless Python ran in between. */
typedef struct {
    int kind, dimension;
    long places;
    Room three[3];
    PyObject *from[3]; /* what each is a copy of; the rows keep it */
} Given;

/* 1: the row is taken. 0: Python has to look at it. */
static int taken(State *state, PyObject *row, long places, Given *given) {
    PyObject *its;
    if (Py_TYPE(row) != (PyTypeObject *)state->Arrays || PyTuple_Size(row) != 6) return 0;
    given->kind = index_of(state->KINDS, PyTuple_GetItem(row, 0));
    given->dimension = index_of(state->DIMENSIONS, PyTuple_GetItem(row, 1));
    its = PyTuple_GetItem(row, 5);
    if (given->kind < 0 || given->dimension < 0 || its == NULL || !PyLong_CheckExact(its)) return 0;
    given->places = PyLong_AsLong(its);
    if (given->places < 0 || given->places > MOST_PLACES) return PyErr_Clear(), 0;
    if (places >= 0 && places < given->places) return 0;
    for (int i = 0; i < 3; i++) {
        PyObject *from = PyTuple_GetItem(row, 2 + i);
        int known;
        if (from == given->from[i]) continue;
        given->from[i] = NULL, given->three[i].used = 0;
        known = copied_in(from, i == 0 ? "lq" : "LQ", &given->three[i]);
        if (known <= 0) return known;
        given->from[i] = from;
    }
    return 1;
}

/* Where a row's arrays stand among the copies, and where its text ends. */
typedef struct {
    uint32_t kind, dimension;
    wkt_status status;
    size_t start[3], end[3], text_end;
} Row;

/* The text of a row, behind those that are there. */
static wkt_status written(State *state, const Room *three, const Row *row, uint32_t places, Room *out) {
    const int64_t *numbers = (int64_t *)three[0].items + row->start[0];
    const size_t *rings = (size_t *)three[1].items + row->start[1];
    const size_t *polygons = (size_t *)three[2].items + row->start[2];
    size_t count = row->end[0] - row->start[0], needed, likely = 16 * count + 64;
    for (;;) {
        wkt_status status;
        if (room_holds(out, likely) < 0) return WKT_NO_MEMORY;
        status = state->from_arrays(row->kind, row->dimension, numbers, count, rings, row->end[1] - row->start[1],
                                    polygons, row->end[2] - row->start[2], places, (uint8_t *)out->items + out->used,
                                    out->room - out->used, &needed);
        if (status == WKT_OK) out->used += needed;
        if (status != WKT_TOO_SMALL) return status;
        likely = needed;
    }
}

/* The text of a row. What is refused Python refuses, by the same call. */
static PyObject *row_text(State *state, PyObject *row, PyObject *at, PyObject *asked, long places, Given *given,
                          Room *out) {
    wkt_status status = WKT_NOT_ARRAYS;
    int known = taken(state, row, places, given);
    if (known < 0) return NULL;
    if (known > 0) {
        const Room *three = given->three;
        const Row its = {.kind = (uint32_t)given->kind,
                         .dimension = (uint32_t)given->dimension,
                         .end = {three[0].used, three[1].used, three[2].used}};
        out->used = 0;
        if (three[0].used < LONG_ROW) {
            status = written(state, three, &its, (uint32_t)given->places, out);
        } else {
            Py_BEGIN_ALLOW_THREADS
            status = written(state, three, &its, (uint32_t)given->places, out);
            Py_END_ALLOW_THREADS
        }
        if (status == WKT_OK) return PyUnicode_FromStringAndSize(out->items, (Py_ssize_t)out->used);
    }
    memset(given->from, 0, sizeof given->from);
    return at == NULL ? NULL : PyObject_CallFunctionObjArgs(state->one_text, row, asked, at, NULL);
}

/* (list, places or None, whether errors name the row) -> list of str and None */
PyObject *fast_from_arrays_rows(PyObject *self, PyObject *const *args, Py_ssize_t count) {
    State *state = state_of(self);
    Given given = {.three = {{NULL, 8, 0, 0}, {NULL, 8, 0, 0}, {NULL, 8, 0, 0}}};
    Room out = {NULL, 1, 0, 0};
    PyObject *rows, *made = NULL;
    long places = -1;
    int failed = 0;
    size_t since = 0;
    if (!has_count(count, 3)) return NULL;
    if (args[1] != Py_None && (places = PyLong_AsLong(args[1])) < 0) return NULL;
    if (!PyList_Check(args[0])) return PyErr_Format(PyExc_TypeError, "rows are a list");
    if ((rows = PyList_GetSlice(args[0], 0, PY_SSIZE_T_MAX)) == NULL) return NULL;
    if ((made = PyList_New(0)) == NULL) failed = 1;
    for (Py_ssize_t i = 0; !failed && i < PyList_Size(rows); i++) {
        PyObject *at = args[2] == Py_True ? PyLong_FromSsize_t(i) : Py_NewRef(Py_None);
        PyObject *text = row_text(state, PyList_GetItem(rows, i), at, args[1], places, &given, &out);
        failed = text == NULL || PyList_Append(made, text) < 0;
        Py_XDECREF(text);
        Py_XDECREF(at);
        since += out.used + 64;
        if (!failed && since > 1 << 20) {
            failed = PyErr_CheckSignals() < 0;
            since = 0;
            memset(given.from, 0, sizeof given.from);
        }
    }
    for (int i = 0; i < 3; i++) free(given.three[i].items);
    free(out.items);
    Py_DECREF(rows);
    if (failed) Py_CLEAR(made);
    return made;
}

/* A column, a block of rows at a time. Its buffers are those of ColumnArrays, in its order. Anything may change them during
 * the call: each item is read once, and what the library gets is a copy. */
typedef struct {
    State *state;
    Py_buffer nine[9];
    Py_ssize_t count, next; /* all rows; the first after the block */
    uint32_t places;
    Room rows, three[3], out; /* of the block */
} Column;

static uint32_t word_at(const Py_buffer *from, Py_ssize_t i) {
    uint32_t item;
    memcpy(&item, (const char *)from->buf + 4 * i, sizeof item); /* it may not be aligned */
    return item;
}

static int64_t offset_at(const Py_buffer *from, Py_ssize_t i) {
    int64_t item;
    memcpy(&item, (const char *)from->buf + 8 * i, sizeof item);
    return item;
}

/* 1; or 0: they are of no column. */
static int column_start(Column *column, PyObject *nine, PyObject *places) {
    unsigned long value = PyLong_AsUnsignedLong(places);
    if (value > UINT32_MAX) return -1;
    if (!PyTuple_Check(nine) || PyTuple_Size(nine) != 9) return PyErr_SetString(PyExc_TypeError, "nine buffers"), -1;
    for (int i = 0; i < 9; i++)
        if (PyObject_GetBuffer(PyTuple_GetItem(nine, i), &column->nine[i], PyBUF_SIMPLE) < 0) return -1;
    column->places = (uint32_t)value;
    column->count = column->nine[0].len / 4;
    if (column->nine[1].len / 4 != column->count || column->nine[8].len / 4 != column->count) return 0;
    for (int k = 0; k < 3; k++) {
        const Py_buffer *items = &column->nine[2 + 2 * k];
        int64_t end;
        if (items[1].len / 8 != column->count + 1) return 0;
        end = offset_at(&items[1], column->count);
        if (end < 0 || end > items->len / 8) return 0;
        if (room_holds(&column->three[k], 1) < 0) return PyErr_NoMemory(), -1;
    }
    return 1;
}

static void column_end(Column *column) {
    for (int i = 0; i < 9; i++)
        if (column->nine[i].obj != NULL) PyBuffer_Release(&column->nine[i]);
    for (int k = 0; k < 3; k++) free(column->three[k].items);
    free(column->rows.items);
    free(column->out.items);
}

/* Copies the arrays of a row behind those of the block: 1. 0: its offsets are of no column. */
static int row_in(Column *column, Py_ssize_t i, Row *row) {
    row->kind = word_at(&column->nine[0], i), row->dimension = word_at(&column->nine[1], i);
    row->status = word_at(&column->nine[8], i) == 0 ? WKT_OK : WKT_NULL;
    for (int k = 0; k < 3; k++) {
        const Py_buffer *items = &column->nine[2 + 2 * k];
        Room *to = &column->three[k];
        int64_t start = offset_at(&items[1], i), end = offset_at(&items[1], i + 1);
        size_t count;
        if (start < 0 || start > end || end > items->len / 8) return 0;
        count = row->status == WKT_OK ? (size_t)(end - start) : 0;
        if (room_holds(to, count) < 0) return PyErr_NoMemory(), -1;
        if (count > 0) memcpy((int64_t *)to->items + to->used, (const char *)items->buf + 8 * start, 8 * count);
        row->start[k] = to->used;
        row->end[k] = to->used += count;
    }
    return 1;
}

/* The rows of the next block: about a megabyte of arrays. A long row is its last. */
static int block_in(Column *column) {
    size_t bytes = 0, before = 0;
    column->rows.used = column->out.used = 0;
    for (int k = 0; k < 3; k++) column->three[k].used = 0;
    while (column->next < column->count && column->rows.used < MOST_ROWS && bytes < MOST_BYTES &&
           bytes - before < LONG_TEXT) {
        Row *row;
        int known;
        if (room_holds(&column->rows, 1) < 0) return PyErr_NoMemory(), -1;
        row = (Row *)column->rows.items + column->rows.used++;
        if ((known = row_in(column, column->next++, row)) <= 0) return known;
        before = bytes;
        for (int k = 0; k < 3; k++) bytes += 8 * (row->end[k] - row->start[k]);
    }
    return 1;
}

static wkt_status block_written(Column *column) {
    for (size_t i = 0; i < column->rows.used; i++) {
        Row *row = (Row *)column->rows.items + i;
        if (row->status == WKT_OK)
            row->status = written(column->state, column->three, row, column->places, &column->out);
        if (row->status == WKT_NO_MEMORY) return WKT_NO_MEMORY;
        row->text_end = column->out.used;
    }
    return WKT_OK;
}

/* Puts the texts of a block, and their statuses, behind those before it. */
static int block_out(const Column *column, PyObject *texts, PyObject *statuses) {
    size_t start = 0;
    int failed = 0;
    for (size_t i = 0; !failed && i < column->rows.used; i++) {
        const Row *row = (const Row *)column->rows.items + i;
        PyObject *status = PyLong_FromLong((long)row->status);
        PyObject *text = row->status != WKT_OK ? Py_NewRef(Py_None)
                                               : PyUnicode_FromStringAndSize((const char *)column->out.items + start,
                                                                             (Py_ssize_t)(row->text_end - start));
        failed =
            text == NULL || status == NULL || PyList_Append(texts, text) < 0 || PyList_Append(statuses, status) < 0;
        Py_XDECREF(text);
        Py_XDECREF(status);
        start = row->text_end;
    }
    return failed ? -1 : 1;
}

/* (nine buffers, places) -> (list of str and None, list of statuses); None: they are of no column */
PyObject *fast_from_arrays_column(PyObject *self, PyObject *const *args, Py_ssize_t count) {
    const Room eights = {NULL, 8, 0, 0};
    Column column = {.state = state_of(self),
                     .rows = {NULL, sizeof(Row), 0, 0},
                     .out = {NULL, 1, 0, 0},
                     .three = {eights, eights, eights}};
    PyObject *texts, *statuses, *made = NULL;
    int known;
    if (!has_count(count, 2)) return NULL;
    texts = PyList_New(0), statuses = PyList_New(0);
    known = texts == NULL || statuses == NULL ? -1 : column_start(&column, args[0], args[1]);
    while (known > 0 && column.next < column.count && (known = block_in(&column)) > 0) {
        wkt_status status;
        Py_BEGIN_ALLOW_THREADS
        status = block_written(&column);
        Py_END_ALLOW_THREADS
        known = status == WKT_OK ? block_out(&column, texts, statuses) : (PyErr_NoMemory(), -1);
        if (known > 0 && PyErr_CheckSignals() < 0) known = -1;
    }
    column_end(&column);
    if (known >= 0) made = known == 0 ? Py_NewRef(Py_None) : PyTuple_Pack(2, texts, statuses);
    Py_XDECREF(texts);
    Py_XDECREF(statuses);
    return made;
}
