/* Columns by blocks of about a megabyte, and each long row of a list by itself. The texts of a block are where Python or
 * Arrow has them: nothing is copied but what is neither str nor bytes. */
#include "fast.h"

int has_count(Py_ssize_t count, Py_ssize_t wanted) {
    if (count != wanted) PyErr_Format(PyExc_TypeError, "%zd arguments, and not %zd", wanted, count);
    return count == wanted;
}

int places_in(State *state, PyObject *const *args, Py_ssize_t texts, Py_ssize_t count, uint32_t *to) {
    PyObject *places, *whole, *made;
    long value = -1;
    if (count != texts + 1 && !has_count(count, texts + 2)) return -1;
    places = args[texts], whole = count == texts + 1 ? NULL : args[texts + 1];
    if (PyLong_CheckExact(places) && (whole == NULL || whole == Py_True || whole == Py_False)) {
        int overflow;
        value = PyLong_AsLongAndOverflow(places, &overflow);
        if (value >= 0 && value <= (whole == NULL ? UINT32_MAX : MOST_PLACES)) {
            *to = (uint32_t)value | (whole == Py_True ? WKT_WHOLE : 0);
            return 0;
        }
    }
    made = PyObject_CallFunctionObjArgs(state->places_of, places, whole, NULL);
    if (made == NULL) return -1;
    value = PyLong_AsLong(made);
    Py_DECREF(made);
    *to = (uint32_t)value;
    return value < 0 ? -1 : 0;
}

PyObject *refused(State *state, uint32_t status, PyObject *text, uint32_t places, Py_ssize_t row) {
    PyObject *number, *made;
    if (status == WKT_NO_MEMORY) return PyErr_NoMemory();
    number = row < 0 ? Py_NewRef(Py_None) : PyLong_FromSsize_t(row);
    if (number == NULL) return NULL;
    made = PyObject_CallFunction(state->refuse, "IOIN", status, text, places, number);
    if (made == NULL) return NULL;
    Py_DECREF(made);
    PyErr_SetString(PyExc_SystemError, "a refused text raises nothing");
    return NULL;
}

/* The text of a row that is neither str nor bytes, or has lone surrogates, as Python has it. */
static int text_by_python(State *state, PyObject *row, PyObject *number, Cell *cell, PyObject **held) {
    char *text;
    *cell = (Cell){NULL, 0};
    if ((*held = PyObject_CallFunctionObjArgs(state->text_of, row, number, NULL)) == NULL) return -1;
    if (*held == Py_None) {
        Py_CLEAR(*held);
        return 0;
    }
    if (PyBytes_AsStringAndSize(*held, &text, &cell->length) < 0) {
        Py_CLEAR(*held);
        return -1;
    }
    cell->text = text;
    return 0;
}

/* Where the text of a str or of bytes stands: 1. 0: Python has to look at it. */
static int text_there(PyObject *row, Cell *cell) {
    if (PyUnicode_Check(row)) {
        if ((cell->text = PyUnicode_AsUTF8AndSize(row, &cell->length)) != NULL) return 1;
        /* Lone surrogates have no UTF-8. */
        if (!PyErr_ExceptionMatches(PyExc_UnicodeEncodeError)) return -1;
        PyErr_Clear();
        return 0;
    }
    if (PyBytes_Check(row)) {
        char *text;
        if (PyBytes_AsStringAndSize(row, &text, &cell->length) < 0) return -1;
        cell->text = text;
        return 1;
    }
    return 0;
}

int text_in(State *state, PyObject *text, Cell *cell, PyObject **held) {
    int there = text_there(text, cell);
    *held = NULL;
    if (there != 0) return there < 0 ? -1 : 0;
    return text_by_python(state, text, Py_None, cell, held);
}

static int row_in(Walk *walk, PyObject *row, Py_ssize_t i, Cell *cell) {
    PyObject *held, *number;
    int there = text_there(row, cell), failed;
    if (there != 0) return there < 0 ? -1 : 0;
    *cell = (Cell){NULL, 0};
    if (row == Py_None || row == walk->null) return 0;
    if (PyFloat_Check(row) && PyFloat_AsDouble(row) != PyFloat_AsDouble(row)) return 0;
    if ((number = PyLong_FromSsize_t(i)) == NULL) return -1;
    failed = text_by_python(walk->state, row, number, cell, &held);
    Py_DECREF(number);
    if (failed < 0) return -1;
    if (held == NULL) {
        walk->null = row; /* it stays in the rows */
        return 0;
    }
    failed = PyList_Append(walk->held, held);
    Py_DECREF(held);
    return failed;
}

/* The memory of a block, once it is known how many rows there are. */
static int started(Walk *walk, State *state, PyObject *report) {
    Py_ssize_t most = walk->count < MOST_ROWS ? walk->count : MOST_ROWS;
    size_t size = (size_t)(most + 1) * sizeof *walk->cells;
    walk->state = state;
    walk->report = report;
    walk->held = PyList_New(0);
    walk->cells = PyMem_Malloc(size);
    walk->others = walk->other == NULL ? NULL : PyMem_Malloc(size);
    walk->statuses = PyMem_Malloc((size_t)(most + 1) * sizeof *walk->statuses);
    if (walk->held == NULL) return -1;
    if (walk->cells != NULL && walk->statuses != NULL && (walk->other == NULL || walk->others != NULL)) return 0;
    PyErr_NoMemory();
    return -1;
}

/* A copy of rows, since Python may run during the walk. Not by methods of a class of their own, which may say anything. */
static PyObject *copied(PyObject *rows, Py_ssize_t *count) {
    PyObject *made = NULL;
    if (PyList_Check(rows)) {
        if ((made = PyList_GetSlice(rows, 0, PY_SSIZE_T_MAX)) != NULL) *count = PyList_Size(made);
    } else if (PyTuple_Check(rows)) {
        if ((made = PyTuple_GetSlice(rows, 0, PY_SSIZE_T_MAX)) != NULL) *count = PyTuple_Size(made);
    } else {
        PyErr_SetString(PyExc_TypeError, "rows are a list or a tuple");
    }
    return made;
}

int walk_rows(Walk *walk, State *state, PyObject *rows, PyObject *other, PyObject *report) {
    Py_ssize_t its = 0;
    *walk = (Walk){0};
    if ((walk->rows = copied(rows, &walk->count)) == NULL) return -1;
    if (other != NULL && (walk->other = copied(other, &its)) == NULL) return -1;
    if (other != NULL && its != walk->count) {
        PyErr_Format(PyExc_ValueError, "columns of %zd and of %zd rows", its, walk->count);
        return -1;
    }
    return started(walk, state, report);
}

static int has_buffer(PyObject *from, Py_buffer *to, Py_ssize_t size, const char *what) {
    if (PyObject_GetBuffer(from, to, PyBUF_SIMPLE) < 0) return -1;
    if (size < 0 || to->len == size) return 0;
    PyErr_Format(PyExc_ValueError, "%s of another size", what);
    return -1;
}

static int64_t offset_of(const Walk *walk, Py_ssize_t i) {
    int64_t offset;
    memcpy(&offset, (const char *)walk->offsets.buf + 8 * i, sizeof offset); /* it may not be aligned */
    return offset;
}

/* Whether each offset is in the bytes, and not below the one before it. */
static int in_order(const Walk *walk) {
    int64_t last = offset_of(walk, 0), first = last;
    int ordered = 1;
    for (Py_ssize_t i = 1; i <= walk->count; i++) {
        int64_t next = offset_of(walk, i);
        ordered &= next >= last;
        last = next;
    }
    return ordered && first >= 0 && last <= walk->data.len;
}

/* packed: (bytes of all, 64-bit offsets, bits or none, rows), or texts that stand in several places. Nobody changes the
 * offsets during the walk. */
int walk_buffers(Walk *walk, State *state, PyObject *packed, PyObject *report) {
    PyObject *data, *offsets, *bits;
    int ordered;
    *walk = (Walk){.state = state, .report = report};
    if ((walk->its = cells_of(state, packed, &walk->count, &walk->bytes)) != NULL) {
        walk->rows = Py_NewRef(packed);
        return 0;
    }
    if (!PyTuple_Check(packed)) return PyErr_SetString(PyExc_TypeError, "buffers are a tuple"), -1;
    if (!PyArg_ParseTuple(packed, "OOOn", &data, &offsets, &bits, &walk->count)) return -1;
    if (walk->count < 0 || walk->count > PY_SSIZE_T_MAX / 16)
        return PyErr_SetString(PyExc_ValueError, "so many rows"), -1;
    if (has_buffer(data, &walk->data, -1, "data") < 0) return -1;
    if (has_buffer(offsets, &walk->offsets, 8 * (walk->count + 1), "offsets") < 0) return -1;
    if (has_buffer(bits, &walk->bits, -1, "bits") < 0) return -1;
    if (walk->bits.len != 0 && walk->bits.len != (walk->count + 7) / 8)
        return PyErr_SetString(PyExc_ValueError, "bits of another size"), -1;
    Py_BEGIN_ALLOW_THREADS
    ordered = in_order(walk);
    Py_END_ALLOW_THREADS
    if (!ordered) PyErr_SetString(PyExc_ValueError, "an offset is past the bytes");
    walk->bytes = ordered ? (size_t)(offset_of(walk, walk->count) - offset_of(walk, 0)) : 0;
    return ordered ? 0 : -1;
}

void walk_end(Walk *walk) {
    Py_XDECREF(walk->rows);
    Py_XDECREF(walk->other);
    Py_XDECREF(walk->held);
    if (walk->data.obj != NULL) PyBuffer_Release(&walk->data);
    if (walk->offsets.obj != NULL) PyBuffer_Release(&walk->offsets);
    if (walk->bits.obj != NULL) PyBuffer_Release(&walk->bits);
    PyMem_Free(walk->cells);
    PyMem_Free(walk->others);
    PyMem_Free(walk->statuses);
}

PyObject *row_at(PyObject *rows, Py_ssize_t i) {
    return PyList_Check(rows) ? PyList_GetItem(rows, i) : PyTuple_GetItem(rows, i);
}

Cell walk_cell(const Walk *walk, Py_ssize_t i) {
    const uint8_t *bits = walk->bits.buf;
    Py_ssize_t row = walk->first + i;
    int64_t start, end;
    if (walk->cells != NULL) return walk->cells[i];
    if (walk->its != NULL) return walk->its[row];
    if (walk->bits.len != 0 && !(bits[row / 8] >> row % 8 & 1)) return (Cell){NULL, 0};
    start = offset_of(walk, row), end = offset_of(walk, row + 1);
    return (Cell){end == start ? "" : (const char *)walk->data.buf + start, end - start};
}

/* Says how many rows are done, about once a megabyte and at the end. */
static int reported(Walk *walk) {
    PyObject *made;
    if (walk->report == Py_None || walk->last == 0 || (walk->unsaid < MOST_BYTES && walk->last < walk->count)) return 0;
    walk->unsaid = 0;
    made = PyObject_CallFunction(walk->report, "n", walk->last);
    Py_XDECREF(made);
    return made == NULL ? -1 : 0;
}

/* The end of the block that begins at walk->last. A long row ends it, so that its answer is copied while it is in the
 * processor's cache. */
static int block_of_rows(Walk *walk) {
    Py_ssize_t bytes = 0, length = 0;
    while (walk->last < walk->count && walk->last - walk->first < MOST_ROWS && bytes < MOST_BYTES &&
           length < LONG_TEXT) {
        Py_ssize_t at = walk->last++, i = at - walk->first;
        if (row_in(walk, row_at(walk->rows, at), at, &walk->cells[i]) < 0) return -1;
        length = walk->cells[i].length;
        if (walk->other != NULL) {
            if (row_in(walk, row_at(walk->other, at), at, &walk->others[i]) < 0) return -1;
            length += walk->others[i].length;
        }
        bytes += length;
    }
    walk->unsaid += walk->last - walk->first < MOST_ROWS ? bytes : MOST_BYTES;
    return 0;
}

/* The same of buffers, where the offsets alone say it: threads wait for each other no longer than that takes. */
static void block_of_buffers(Walk *walk) {
    Py_ssize_t low = walk->first, high = walk->count - low < MOST_ROWS ? walk->count : low + MOST_ROWS;
    int64_t most = (walk->its == NULL ? offset_of(walk, low) : 0) + MOST_BYTES;
    for (int64_t bytes = 0; walk->its != NULL && bytes < most && low < high; low++) bytes += walk->its[low].length;
    if (walk->its != NULL) high = low;
    while (low < high) { /* the first row that begins past the most, or the end */
        Py_ssize_t middle = low + (high - low) / 2;
        if (offset_of(walk, middle) < most)
            low = middle + 1;
        else
            high = middle;
    }
    walk->last = low;
    walk->unsaid = MOST_BYTES;
}

int walk_next(Walk *walk) {
    if (reported(walk) < 0 || PyErr_CheckSignals() < 0) return -1;
    walk->first = walk->last;
    if (walk->cells == NULL) {
        block_of_buffers(walk);
    } else {
        if (PyList_Size(walk->held) > 0 && PyList_SetSlice(walk->held, 0, PY_SSIZE_T_MAX, NULL) < 0) return -1;
        if (block_of_rows(walk) < 0) return -1;
    }
    return walk->last > walk->first;
}
