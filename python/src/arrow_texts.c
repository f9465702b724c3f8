/* The texts of an Arrow array. Those of utf8 and binary as the library takes a column: their bytes, 64-bit offsets from 0
 * on, and bits. Of views, of a dictionary and of runs where each stands, and of the latter two each that a row has once,
 * with the index of each row's. No bytes of texts are copied. Offsets, bits and views are, and then checked, so that a
 * producer's other thread changes nothing behind a check. Nothing is taken to be aligned. */
#include "fast.h"

PyObject *arrow_wrong(const char *what) {
    PyErr_Format(PyExc_ValueError, "the Arrow column is wrong: %s", what);
    return NULL;
}

/* Whether an array has the buffers and the columns of its type, and `rows` from `first` on, which are counted from its
 * offset. */
int arrow_has(const struct ArrowArray *array, int64_t least, int64_t most, int64_t columns, int64_t first,
              int64_t rows) {
    const char *what = NULL;
    if (array->length < 0 || array->offset < 0 || array->length > INT64_MAX / 32 || array->offset > INT64_MAX / 32)
        what = "its length or its offset";
    else if (first < 0 || rows < 0 || first > array->length || rows > array->length - first)
        what = "it is shorter than its table";
    else if (array->n_buffers < least || array->n_buffers > most || (least > 0 && array->buffers == NULL))
        what = "the number of its buffers";
    else if (array->n_children != columns || (columns > 0 && array->children == NULL))
        what = "the number of the columns in it";
    else if (array->null_count < -1 || array->null_count > array->length)
        what = "the number of its nulls";
    else if (least > 0 && array->null_count > 0 && array->buffers[0] == NULL)
        what = "it has nulls and no bits";
    for (int64_t i = 0; what == NULL && i < columns; i++)
        if (array->children[i] == NULL) what = "a column in it is lacking";
    if (what != NULL) arrow_wrong(what);
    return what == NULL;
}

int arrow_is_null(const struct ArrowArray *array, int64_t at) {
    const uint8_t *bits = array->null_count == 0 ? NULL : array->buffers[0];
    return bits != NULL && !(bits[at / 8] >> at % 8 & 1);
}

/* The bits of some rows, the first of which is the lowest of its byte; no bytes where no row is null. */
PyObject *arrow_bits(const struct ArrowArray *array, int64_t at, int64_t rows) {
    const uint8_t *bits = array->null_count == 0 ? NULL : array->buffers[0];
    int64_t size = bits == NULL ? 0 : (rows + 7) / 8, last = (at + rows + 7) / 8;
    PyObject *made = PyBytes_FromStringAndSize(NULL, (Py_ssize_t)size);
    uint8_t *to = made == NULL ? NULL : (uint8_t *)PyBytes_AsString(made);
    for (int64_t i = 0; to != NULL && i < size; i++) {
        int64_t from = at / 8 + i;
        unsigned both = bits[from] | (from + 1 < last ? (unsigned)bits[from + 1] << 8 : 0);
        to[i] = (uint8_t)(both >> at % 8);
    }
    return made;
}

static int64_t offset_at(const void *offsets, int is_64, int64_t at) {
    int32_t small;
    int64_t large;
    if (is_64) {
        memcpy(&large, (const char *)offsets + 8 * at, sizeof large);
        return large;
    }
    memcpy(&small, (const char *)offsets + 4 * at, sizeof small);
    return small;
}

/* Copies offsets as 64 bits, from 0 on; -1 where they aren't in order. *start: the first. */
int arrow_offsets(const void *offsets, int is_64, int64_t at, int64_t rows, int64_t *to, int64_t *start) {
    int64_t first = rows == 0 ? 0 : offset_at(offsets, is_64, at), last = first;
    int ordered = first >= 0;
    to[0] = 0;
    Py_BEGIN_ALLOW_THREADS
    for (int64_t i = 1; i <= rows; i++) {
        int64_t next = offset_at(offsets, is_64, at + i);
        ordered &= next >= last;
        to[i] = (int64_t)((uint64_t)next - (uint64_t)first);
        last = next;
    }
    Py_END_ALLOW_THREADS
    *start = first;
    return ordered ? 0 : -1;
}

/* A column of offsets: the bytes are the producer's. */
static PyObject *plain(State *state, const Type *type, const struct ArrowArray *array, int64_t at, int64_t rows,
                       PyObject *owner) {
    int is_64 = type->texts->format[0] == 'U' || type->texts->format[0] == 'Z';
    const char *bytes = array->buffers[2];
    PyObject *offsets, *bits, *data = NULL;
    int64_t *to, start;
    if (rows > 0 && array->buffers[1] == NULL) return arrow_wrong("it has rows and no offsets");
    if ((offsets = PyBytes_FromStringAndSize(NULL, (Py_ssize_t)(8 * (rows + 1)))) == NULL) return NULL;
    to = (int64_t *)PyBytes_AsString(offsets);
    if (arrow_offsets(array->buffers[1], is_64, at, rows, to, &start) < 0)
        arrow_wrong("its offsets aren't in order");
    else if (to[rows] > 0 && bytes == NULL)
        arrow_wrong("it has texts and no bytes");
    else
        data = lent(state, bytes == NULL ? "" : bytes + start, (Py_ssize_t)to[rows], owner);
    bits = data == NULL ? NULL : arrow_bits(array, at, rows);
    if (bits == NULL) {
        Py_XDECREF(data);
        Py_DECREF(offsets);
        return NULL;
    }
    return Py_BuildValue("NNNLO", data, offsets, bits, (long long)rows, Py_None);
}

/* A column of the type null: it has no buffers, and rows that are null. */
static PyObject *nulls(State *state, int64_t rows, PyObject *owner) {
    PyObject *offsets = PyBytes_FromStringAndSize(NULL, (Py_ssize_t)(8 * (rows + 1)));
    PyObject *bits = PyBytes_FromStringAndSize(NULL, (Py_ssize_t)((rows + 7) / 8));
    PyObject *data = offsets == NULL || bits == NULL ? NULL : lent(state, "", 0, owner);
    if (data == NULL) {
        Py_XDECREF(offsets);
        Py_XDECREF(bits);
        return NULL;
    }
    memset(PyBytes_AsString(offsets), 0, (size_t)(8 * (rows + 1)));
    memset(PyBytes_AsString(bits), 0, (size_t)((rows + 7) / 8));
    return Py_BuildValue("NNNLO", data, offsets, bits, (long long)rows, Py_None);
}

static int view_at(const struct ArrowArray *array, int64_t at, Cell *cell) {
    const char *view = (const char *)array->buffers[1] + 16 * at;
    int64_t count = array->n_buffers - 3, size;
    int32_t head[4];
    memcpy(head, view, sizeof head);
    if (head[0] < 0) return -1;
    cell->length = head[0];
    if (head[0] <= 12) {
        cell->text = view + 4;
        return 0;
    }
    if (head[2] < 0 || head[2] >= count || head[3] < 0) return -1;
    memcpy(&size, (const char *)array->buffers[array->n_buffers - 1] + 8 * head[2], sizeof size);
    if (array->buffers[2 + head[2]] == NULL || head[3] > size || head[0] > size - head[3]) return -1;
    cell->text = (const char *)array->buffers[2 + head[2]] + head[3];
    return 0;
}

static int text_at(const struct ArrowArray *array, int is_64, int64_t at, Cell *cell) {
    int64_t start = offset_at(array->buffers[1], is_64, at), end = offset_at(array->buffers[1], is_64, at + 1);
    if (start < 0 || end < start || (end > start && array->buffers[2] == NULL)) return -1;
    cell->text = end == start ? "" : (const char *)array->buffers[2] + start;
    cell->length = end - start;
    return 0;
}

/* The texts of rows from one on, which is counted from the array's offset. */
static int texts_at(const Type *type, const struct ArrowArray *array, int64_t first, int64_t rows, Cell *cells) {
    int views = type->texts->format[0] == 'v', is_64 = type->texts->format[0] == 'U' || type->texts->format[0] == 'Z';
    if (!arrow_has(array, 3, views ? INT32_MAX : 3, 0, first, rows)) return -1;
    if (rows > 0 && array->buffers[1] == NULL) return arrow_wrong("it has rows and no offsets"), -1;
    if (views && array->n_buffers > 3 && array->buffers[array->n_buffers - 1] == NULL)
        return arrow_wrong("its views have no sizes"), -1;
    for (int64_t i = 0; i < rows; i++) {
        int64_t at = array->offset + first + i;
        cells[i] = (Cell){NULL, 0};
        if (arrow_is_null(array, at)) continue;
        if ((views ? view_at(array, at, &cells[i]) : text_at(array, is_64, at, &cells[i])) < 0)
            return arrow_wrong(views ? "a view is past its buffer" : "its offsets aren't in order"), -1;
    }
    return 0;
}

/* An index of a dictionary; -1 where it is none. */
static int64_t index_at(const Type *type, const void *indices, int64_t at) {
    uint64_t value = 0;
    memcpy(&value, (const char *)indices + type->index * at,
           (size_t)type->index); /* both processors are little-endian */
    if (type->is_signed && value >> (8 * type->index - 1)) return -1;
    return value > INT64_MAX ? -1 : (int64_t)value;
}

/* Which of the values each row has: by runs, by the indices of a dictionary, or by the indices of runs. */
typedef struct {
    const Type *type;
    const struct ArrowArray *ends, *indices, *values;
    int64_t first, run,
        before; /* the first row; the run of the last one that was asked for, and the end of that before */
} Choice;

static int choice_of(const Type *type, const struct ArrowArray *array, int64_t first, int64_t rows, Choice *choice) {
    const struct ArrowArray *held = array;
    *choice = (Choice){.type = type, .first = first};
    if (type->runs) {
        if (!arrow_has(array, 0, 1, 2, first, rows)) return -1;
        choice->ends = array->children[0], held = array->children[1];
        choice->first = array->offset + first;
        if (!arrow_has(choice->ends, 2, 2, 0, 0, choice->ends->length)) return -1;
        first = 0, rows = choice->ends->length;
        if (rows > 0 && choice->ends->buffers[1] == NULL) return arrow_wrong("its runs have no ends"), -1;
        if (held->length < rows) return arrow_wrong("it has fewer values than runs"), -1;
    }
    choice->values = held;
    if (type->index) {
        if (!arrow_has(held, 2, 2, 0, first, rows)) return -1;
        if (held->dictionary == NULL) return arrow_wrong("it has no dictionary"), -1;
        if (rows > 0 && held->buffers[1] == NULL) return arrow_wrong("it has rows and no indices"), -1;
        choice->indices = held, choice->values = held->dictionary;
    }
    if (choice->values->length < 0 || choice->values->length > INT32_MAX)
        return arrow_wrong("the number of its values"), -1;
    return 0;
}

/* The run of a row; -1 where there is none. Rows are asked for in their order. */
static int64_t run_at(Choice *choice, int64_t row) {
    const struct ArrowArray *ends = choice->ends;
    for (; choice->run < ends->length; choice->run++) {
        int size = choice->type->runs;
        int64_t end = 0;
        memcpy(&end, (const char *)ends->buffers[1] + size * (ends->offset + choice->run), (size_t)size);
        if (end >> (8 * size - 1) & 1 || end <= choice->before) return -1; /* both processors are little-endian */
        if (end > row) return choice->run;
        choice->before = end;
    }
    return -1;
}

/* The value of a row: -1 of a null one, -2 where the column is wrong. */
static int64_t value_at(Choice *choice, int64_t row) {
    const struct ArrowArray *indices = choice->indices;
    int64_t at = choice->first + row;
    if (choice->type->runs && (at = run_at(choice, at)) < 0) return arrow_wrong("the ends of its runs"), -2;
    if (indices == NULL) return at;
    if (arrow_is_null(indices, indices->offset + at)) return -1;
    at = index_at(choice->type, indices->buffers[1], indices->offset + at);
    if (at < 0 || at >= choice->values->length) return arrow_wrong("an index is past its dictionary"), -2;
    return at;
}

/* The values that rows have, in the order in which they come first, and the index of each row's, -1 of a null one: bytes of
 * int32. */
static PyObject *chosen_of(Choice *choice, int64_t rows, Cell *known, Cell *cells, int32_t *places, int32_t *all) {
    PyObject *indices = PyBytes_FromStringAndSize(NULL, (Py_ssize_t)(4 * rows));
    char *to = indices == NULL ? NULL : PyBytes_AsString(indices);
    int32_t count = 0;
    for (int64_t i = 0; to != NULL && i < rows; i++) {
        int64_t value = value_at(choice, i);
        int32_t index = -1;
        if (value < -1) return Py_DECREF(indices), NULL;
        if (value >= 0 && known[value].text != NULL) {
            if (places[value] == 0) cells[count] = known[value], places[value] = ++count;
            index = places[value] - 1;
        }
        memcpy(to + 4 * i, &index, sizeof index);
    }
    *all = count;
    return indices;
}

/* Texts that are read where they stand. Takes the cells and the reference to the indices, or None. */
static PyObject *in_place(State *state, Cell *cells, int64_t count, PyObject *indices, PyObject *owner) {
    PyObject *texts = lent_cells(state, cells, (Py_ssize_t)count, owner);
    if (texts == NULL) return Py_DECREF(indices), NULL;
    return Py_BuildValue("NOOLN", texts, Py_None, Py_None, (long long)count, indices);
}

static PyObject *chosen(State *state, const Type *type, const struct ArrowArray *array, int64_t first, int64_t rows,
                        PyObject *owner) {
    Choice choice;
    PyObject *made = NULL;
    Cell *known, *cells;
    int32_t *places, count = 0;
    size_t size;
    if (choice_of(type, array, first, rows, &choice) < 0) return NULL;
    size = (size_t)choice.values->length + 1;
    known = calloc(size, sizeof *known), cells = calloc(size, sizeof *cells), places = calloc(size, sizeof *places);
    if (known == NULL || cells == NULL || places == NULL)
        PyErr_NoMemory();
    else if (texts_at(type, choice.values, 0, choice.values->length, known) == 0)
        made = chosen_of(&choice, rows, known, cells, places, &count);
    free(known);
    free(places);
    if (made != NULL) return in_place(state, cells, count, made, owner);
    free(cells);
    return NULL;
}

/* Whether a row of a table is null as a whole. A producer may give bits that are all 1. */
static int has_nulls(const struct ArrowArray *table) {
    if (table->n_buffers < 1 || table->buffers == NULL) return 0;
    for (int64_t i = 0; i < table->length; i++)
        if (arrow_is_null(table, table->offset + i)) return 1;
    return 0;
}

/* The array of the column in a struct, and the row of it at which the struct's begin. */
const struct ArrowArray *arrow_column_in(const struct ArrowArray *table, int64_t *first) {
    const struct ArrowArray *column = table->n_children == 1 && table->children != NULL ? table->children[0] : NULL;
    *first = table->offset;
    if (column == NULL) {
        arrow_wrong("the table has no column");
    } else if (table->length < 0 || table->offset < 0) {
        arrow_wrong("the table's length or its offset");
        column = NULL;
    } else if (table->offset > column->length || table->length > column->length - table->offset) {
        arrow_wrong("it is shorter than its table");
        column = NULL;
    } else if (has_nulls(table)) {
        arrow_wrong("rows of the table are null as a whole");
        column = NULL;
    }
    return column;
}

PyObject *arrow_texts(PyObject *module, const Type *type, const struct ArrowArray *array, PyObject *owner) {
    const struct ArrowArray *column = array;
    int64_t first = 0, rows = array->length;
    Cell *cells;
    if (type->nested && (column = arrow_column_in(array, &first)) == NULL) return NULL;
    if (rows < 0 || rows > INT64_MAX / 32) return arrow_wrong("its length or its offset");
    if (type->runs || type->index) return chosen(state_of(module), type, column, first, rows, owner);
    if (type->texts->format[0] == 'n')
        return arrow_has(column, 0, 1, 0, first, rows) ? nulls(state_of(module), rows, owner) : NULL;
    if (type->texts->format[0] != 'v') {
        if (!arrow_has(column, 3, 3, 0, first, rows)) return NULL;
        return plain(state_of(module), type, column, column->offset + first, rows, owner);
    }
    if ((cells = calloc((size_t)rows + 1, sizeof *cells)) == NULL) return PyErr_NoMemory();
    if (texts_at(type, column, first, rows, cells) == 0)
        return in_place(state_of(module), cells, rows, Py_NewRef(Py_None), owner);
    free(cells);
    return NULL;
}
