/* Geometries as flat arrays, of one text and of columns. */
#include "fast.h"

/* The arrays of some texts, one row's behind the other's: numbers, rings, polygons. */
enum { NUMBERS, RINGS, POLYGONS, THREE };
typedef struct {
    Room three[THREE], ends[THREE]; /* ends: where each row's end, and 0 before the first */
    Room kinds, dimensions, statuses;
} Flat;

static int flat_start(Flat *flat) {
    *flat = (Flat){.kinds = {NULL, 4, 0, 0}, .dimensions = {NULL, 4, 0, 0}, .statuses = {NULL, 4, 0, 0}};
    for (int i = 0; i < THREE; i++) flat->three[i] = flat->ends[i] = (Room){NULL, 8, 0, 0};
    for (int i = 0; i < THREE; i++) {
        if (room_holds(&flat->ends[i], 1) < 0) return PyErr_NoMemory(), -1;
        *(int64_t *)flat->ends[i].items = 0;
        flat->ends[i].used = 1;
    }
    return 0;
}

static void flat_end(Flat *flat) {
    for (int i = 0; i < THREE; i++) {
        free(flat->three[i].items);
        free(flat->ends[i].items);
    }
    free(flat->kinds.items);
    free(flat->dimensions.items);
    free(flat->statuses.items);
}

/* The arrays of a text, behind those that are there. */
static wkt_status flatten(State *state, const Cell *cell, uint32_t places, Flat *flat, WktSizes *sizes) {
    Room *three = flat->three;
    size_t likely[THREE] = {(size_t)cell->length / 8 + 8, 4, 4};
    for (;;) {
        wkt_status status;
        for (int i = 0; i < THREE; i++)
            if (room_holds(&three[i], likely[i]) < 0) return WKT_NO_MEMORY;
        status = state->arrays(
            (const uint8_t *)cell->text, (size_t)cell->length, places, sizes,
            (int64_t *)three[NUMBERS].items + three[NUMBERS].used, three[NUMBERS].room - three[NUMBERS].used,
            (size_t *)three[RINGS].items + three[RINGS].used, three[RINGS].room - three[RINGS].used,
            (size_t *)three[POLYGONS].items + three[POLYGONS].used, three[POLYGONS].room - three[POLYGONS].used);
        if (status == WKT_OK) {
            three[NUMBERS].used += sizes->numbers;
            three[RINGS].used += sizes->rings;
            three[POLYGONS].used += sizes->polygons;
        }
        if (status != WKT_TOO_SMALL) return status;
        likely[NUMBERS] = sizes->numbers, likely[RINGS] = sizes->rings, likely[POLYGONS] = sizes->polygons;
    }
}

static wkt_status flatten_row(State *state, const Cell *cell, uint32_t places, Flat *flat) {
    WktSizes sizes = {0};
    wkt_status status = cell->text == NULL ? WKT_NULL : flatten(state, cell, places, flat, &sizes);
    if (status == WKT_NO_MEMORY) return WKT_NO_MEMORY;
    if (status != WKT_OK) sizes = (WktSizes){0};
    ((uint32_t *)flat->statuses.items)[flat->statuses.used++] = status;
    ((uint32_t *)flat->kinds.items)[flat->kinds.used++] = sizes.kind;
    ((uint32_t *)flat->dimensions.items)[flat->dimensions.used++] = sizes.dimension;
    for (int i = 0; i < THREE; i++)
        ((int64_t *)flat->ends[i].items)[flat->ends[i].used++] = (int64_t)flat->three[i].used;
    return WKT_OK;
}

static wkt_status flatten_block(const Walk *walk, uint32_t places, Flat *flat) {
    size_t rows = (size_t)(walk->last - walk->first);
    if (room_holds(&flat->statuses, rows) < 0 || room_holds(&flat->kinds, rows) < 0 ||
        room_holds(&flat->dimensions, rows) < 0)
        return WKT_NO_MEMORY;
    for (int i = 0; i < THREE; i++)
        if (room_holds(&flat->ends[i], rows) < 0) return WKT_NO_MEMORY;
    for (size_t i = 0; i < rows; i++) {
        Cell cell = walk_cell(walk, (Py_ssize_t)i);
        if (flatten_row(walk->state, &cell, places, flat) != WKT_OK) return WKT_NO_MEMORY;
    }
    return WKT_OK;
}

/* The nine of ColumnArrays, as buffers. */
static PyObject *nine(State *state, Flat *flat) {
    Room *rooms[] = {&flat->kinds,           &flat->dimensions,     &flat->three[NUMBERS],
                     &flat->ends[NUMBERS],   &flat->three[RINGS],   &flat->ends[RINGS],
                     &flat->three[POLYGONS], &flat->ends[POLYGONS], &flat->statuses};
    PyObject *made = PyTuple_New(9);
    for (Py_ssize_t i = 0; made != NULL && i < 9; i++) {
        PyObject *buffer = lent_room(state, rooms[i], 1);
        if (buffer == NULL || PyTuple_SetItem(made, i, buffer) < 0) Py_CLEAR(made);
    }
    return made;
}

/* (rows or (data, offsets, bits, rows), places, report, whether those are buffers) -> nine buffers */
PyObject *fast_arrays_rows(PyObject *self, PyObject *const *args, Py_ssize_t count) {
    State *state = state_of(self);
    PyObject *made = NULL;
    unsigned long places;
    Flat flat;
    Walk walk;
    int more;
    if (!has_count(count, 4) || (places = PyLong_AsUnsignedLong(args[1])) > UINT32_MAX) return NULL;
    more = args[3] == Py_True ? walk_buffers(&walk, state, args[0], args[2])
                              : walk_rows(&walk, state, args[0], NULL, args[2]);
    if (flat_start(&flat) < 0) more = -1;
    while (more >= 0 && (more = walk_next(&walk)) > 0) {
        wkt_status status;
        Py_BEGIN_ALLOW_THREADS
        status = flatten_block(&walk, (uint32_t)places, &flat);
        Py_END_ALLOW_THREADS
        if (status != WKT_OK) more = (PyErr_NoMemory(), -1);
    }
    walk_end(&walk);
    if (more == 0) made = nine(state, &flat);
    flat_end(&flat);
    return made;
}

/* A tuple of the class Arrays, without a call of Python for each. */
static PyObject *made_arrays(State *state, PyObject *six) {
    newfunc make = (newfunc)PyType_GetSlot(&PyTuple_Type, Py_tp_new);
    PyObject *args = PyTuple_Pack(1, six), *made = NULL;
    if (args != NULL) made = make((PyTypeObject *)state->Arrays, args, NULL);
    Py_XDECREF(args);
    return made;
}

/* The arrays of a block's rows, and of rings and polygons the part that the row before has: many rows have the same, and
 * share it where nobody can write it. */
typedef struct {
    State *state;
    const Flat *flat;
    int shares;
    PyObject *arrays[THREE], *before[THREE], *places;
    Py_buffer views[THREE];
    int64_t start[THREE], end[THREE]; /* of what is before */
} Cut;

static int cut_start(Cut *cut, Flat *flat, uint32_t places) {
    for (int i = 0; i < THREE; i++) {
        PyObject *items = lent_room(cut->state, &flat->three[i], i == NUMBERS || !cut->shares);
        if (items == NULL) return -1;
        if (PyObject_GetBuffer(items, &cut->views[i], PyBUF_SIMPLE) == 0)
            cut->arrays[i] = PyObject_CallFunction(cut->state->array_of, "sO", i == NUMBERS ? "q" : "Q", items);
        Py_DECREF(items);
        if (cut->arrays[i] == NULL) return -1;
    }
    cut->flat = flat;
    cut->places = PyLong_FromUnsignedLong(places % WKT_WHOLE);
    return cut->places == NULL ? -1 : 0;
}

static void cut_end(Cut *cut) {
    for (int i = 0; i < THREE; i++) {
        if (cut->views[i].obj != NULL) PyBuffer_Release(&cut->views[i]);
        Py_XDECREF(cut->arrays[i]);
        Py_XDECREF(cut->before[i]);
    }
    Py_XDECREF(cut->places);
}

/* Numbers, rings or polygons of a row: all of them, if no other row is in the block. */
static PyObject *part_of(Cut *cut, int at, Py_ssize_t row) {
    const int64_t *ends = cut->flat->ends[at].items, *items = cut->views[at].buf, start = ends[row],
                  end = ends[row + 1];
    PyObject *made;
    if (cut->flat->statuses.used == 1) return Py_NewRef(cut->arrays[at]);
    if (cut->shares && at != NUMBERS && cut->before[at] != NULL && end - start == cut->end[at] - cut->start[at] &&
        memcmp(items + start, items + cut->start[at], (size_t)(end - start) * sizeof *items) == 0)
        return Py_NewRef(cut->before[at]);
    if ((made = PySequence_GetSlice(cut->arrays[at], (Py_ssize_t)start, (Py_ssize_t)end)) == NULL) return NULL;
    Py_XDECREF(cut->before[at]);
    cut->before[at] = Py_NewRef(made), cut->start[at] = start, cut->end[at] = end;
    return made;
}

/* The Arrays of a row that has them. */
static PyObject *row_of(Cut *cut, Py_ssize_t i) {
    Py_ssize_t kind = ((uint32_t *)cut->flat->kinds.items)[i], dimension = ((uint32_t *)cut->flat->dimensions.items)[i];
    PyObject *six = PyTuple_New(6), *made;
    for (Py_ssize_t part = 0; six != NULL && part < 6; part++) {
        PyObject *item = part == 0   ? Py_XNewRef(PyTuple_GetItem(cut->state->KINDS, kind))
                         : part == 1 ? Py_XNewRef(PyTuple_GetItem(cut->state->DIMENSIONS, dimension))
                         : part < 5  ? part_of(cut, (int)part - 2, i)
                                     : Py_NewRef(cut->places);
        if (item == NULL || PyTuple_SetItem(six, part, item) < 0) Py_CLEAR(six);
    }
    made = six == NULL ? NULL : made_arrays(cut->state, six);
    Py_XDECREF(six);
    return made;
}

static int arrays_of(const Walk *walk, Flat *flat, uint32_t places, long invalid, int shares, PyObject *made) {
    Cut cut = {.state = walk->state, .shares = shares};
    int failed = cut_start(&cut, flat, places);
    int collects = PyGC_Disable(); /* it would take as long as all of this, and none of it is garbage */
    for (Py_ssize_t i = 0; failed == 0 && i < walk->last - walk->first; i++) {
        uint32_t status = ((uint32_t *)flat->statuses.items)[i];
        Py_ssize_t at = walk->first + i;
        PyObject *row;
        if (status == WKT_OK)
            row = row_of(&cut, i);
        else if (status == WKT_NULL || invalid != 0)
            row = Py_NewRef(Py_None);
        else
            row = refused(walk->state, status, at < 0 ? walk->rows : row_at(walk->rows, at), places, at);
        failed = row == NULL ? -1 : PyList_Append(made, row);
        Py_XDECREF(row);
    }
    if (collects) PyGC_Enable();
    cut_end(&cut);
    return failed;
}

/* The Arrays of a block's rows, behind those in a list; or of one text, which is the rows then, and the first is -1.
 * invalid: 0 "raise" or 1 "null". */
static int block_arrays(const Walk *walk, uint32_t places, long invalid, int shares, PyObject *made) {
    wkt_status status = WKT_OK;
    Flat flat;
    int failed = flat_start(&flat);
    if (failed == 0) {
        Py_BEGIN_ALLOW_THREADS
        status = flatten_block(walk, places, &flat);
        Py_END_ALLOW_THREADS
        failed = status == WKT_OK ? arrays_of(walk, &flat, places, invalid, shares, made) : (PyErr_NoMemory(), -1);
    }
    flat_end(&flat);
    return failed;
}

/* (rows, places, 0 "raise" or 1 "null", report, whether rows may share rings and polygons) -> list of Arrays and None */
PyObject *fast_arrays_list(PyObject *self, PyObject *const *args, Py_ssize_t count) {
    PyObject *made = NULL;
    unsigned long places;
    Walk walk;
    long invalid;
    int more = -1;
    if (!has_count(count, 5) || (places = PyLong_AsUnsignedLong(args[1])) > UINT32_MAX) return NULL;
    if ((invalid = PyLong_AsLong(args[2])) < 0 && PyErr_Occurred()) return NULL;
    if (walk_rows(&walk, state_of(self), args[0], NULL, args[3]) == 0 && (made = PyList_New(0)) != NULL)
        while ((more = walk_next(&walk)) > 0)
            if ((more = block_arrays(&walk, (uint32_t)places, invalid, args[4] == Py_True, made)) < 0) break;
    walk_end(&walk);
    if (more < 0) Py_CLEAR(made);
    return made;
}

/* (text, places, whole) -> Arrays */
PyObject *fast_arrays(PyObject *self, PyObject *const *args, Py_ssize_t count) {
    PyObject *held, *list, *made = NULL;
    Cell cell;
    Walk one = {.state = state_of(self), .cells = &cell, .first = -1};
    uint32_t places;
    if (places_in(one.state, args, 1, count, &places) < 0 || text_in(one.state, args[0], &cell, &held) < 0) return NULL;
    one.rows = args[0];
    if ((list = PyList_New(0)) != NULL && block_arrays(&one, places, 0, 0, list) == 0)
        made = Py_NewRef(PyList_GetItem(list, 0));
    Py_XDECREF(list);
    Py_XDECREF(held);
    return made;
}
