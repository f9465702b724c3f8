/* Geometries of any kind as events and numbers, and the SRID in front of a text: of one text, and row by row. */
#include "fast.h"

typedef struct {
    Room events, numbers;
} Lists;

static wkt_status read_lists(State *state, const Cell *cell, uint32_t places, Lists *lists) {
    size_t events = (size_t)cell->length / 16 + 16, numbers = (size_t)cell->length / 4 + 8, end;
    for (;;) {
        wkt_status status;
        if (room_holds(&lists->events, events) < 0 || room_holds(&lists->numbers, numbers) < 0) return WKT_NO_MEMORY;
        status =
            state->read_events((const uint8_t *)cell->text, (size_t)cell->length, places, lists->events.items,
                               lists->events.room, lists->numbers.items, lists->numbers.room, &events, &numbers, &end);
        if (status == WKT_OK) lists->events.used = events, lists->numbers.used = numbers;
        if (status != WKT_TOO_SMALL) return status;
    }
}

/* (kind, dimension) where a geometry begins, None where it ends, or how many coordinates come. */
static PyObject *event_of(const State *state, uint64_t event) {
    if (event == WKT_EVENT_END) return Py_NewRef(Py_None);
    if (event < WKT_EVENT_BEGIN) return PyLong_FromUnsignedLongLong(event);
    return Py_NewRef(state->headers[WKT_EVENT_KIND(event) % 7][WKT_EVENT_DIMENSION(event)]);
}

static PyObject *number_of(const WktUnits *units) {
    PyObject *high, *low, *bits, *shifted = NULL, *made = NULL;
    if (units->high == (int64_t)units->low >> 63) return PyLong_FromLongLong((int64_t)units->low);
    high = PyLong_FromLongLong(units->high), low = PyLong_FromUnsignedLongLong(units->low), bits = PyLong_FromLong(64);
    if (high != NULL && low != NULL && bits != NULL) shifted = PyNumber_Lshift(high, bits);
    if (shifted != NULL) made = PyNumber_Add(shifted, low);
    Py_XDECREF(high);
    Py_XDECREF(low);
    Py_XDECREF(bits);
    Py_XDECREF(shifted);
    return made;
}

static PyObject *events_of(State *state, const Lists *lists, uint32_t places) {
    PyObject *events = PyList_New((Py_ssize_t)lists->events.used), *numbers = NULL;
    if (events != NULL) numbers = PyList_New((Py_ssize_t)lists->numbers.used);
    for (size_t i = 0; numbers != NULL && i < lists->events.used; i++) {
        PyObject *item = event_of(state, ((uint64_t *)lists->events.items)[i]);
        if (item == NULL || PyList_SetItem(events, (Py_ssize_t)i, item) < 0) Py_CLEAR(numbers);
    }
    for (size_t i = 0; numbers != NULL && i < lists->numbers.used; i++) {
        PyObject *item = number_of((WktUnits *)lists->numbers.items + i);
        if (item == NULL || PyList_SetItem(numbers, (Py_ssize_t)i, item) < 0) Py_CLEAR(numbers);
    }
    if (numbers != NULL) return PyObject_CallFunction(state->Events, "NNI", events, numbers, places % WKT_WHOLE);
    Py_XDECREF(events);
    return NULL;
}

/* The Events of a text, or its error. row: -1 of one that is no row. */
static PyObject *text_events(State *state, PyObject *text, const Cell *cell, const Asked *asked, Py_ssize_t row) {
    Lists lists = {{NULL, sizeof(uint64_t), 0, 0}, {NULL, sizeof(WktUnits), 0, 0}};
    wkt_status status;
    PyObject *made;
    if (cell->length < LONG_TEXT) {
        status = read_lists(state, cell, asked->places, &lists);
    } else {
        Py_BEGIN_ALLOW_THREADS
        status = read_lists(state, cell, asked->places, &lists);
        Py_END_ALLOW_THREADS
    }
    if (status == WKT_OK)
        made = events_of(state, &lists, asked->places);
    else if (asked->invalid != 0 && status != WKT_NO_MEMORY)
        made = Py_NewRef(Py_None);
    else
        made = refused(state, status, text, asked->places, row);
    free(lists.events.items);
    free(lists.numbers.items);
    return made;
}

/* (text, places) -> Events */
PyObject *fast_events(PyObject *self, PyObject *const *args, Py_ssize_t count) {
    State *state = state_of(self);
    Asked asked = {0};
    Cell cell;
    PyObject *held, *made;
    if (places_in(state, args, 1, count, &asked.places) < 0 || text_in(state, args[0], &cell, &held) < 0) return NULL;
    made = text_events(state, args[0], &cell, &asked, -1);
    Py_XDECREF(held);
    return made;
}

static PyObject *row_events(Walk *walk, Py_ssize_t i, const Asked *asked) {
    Py_ssize_t row = walk->first + i;
    return text_events(walk->state, row_at(walk->rows, row), &walk->cells[i], asked, row);
}

/* (rows, places, 0 "raise" or 1 "null", report) -> list of Events and None */
PyObject *fast_events_rows(PyObject *self, PyObject *const *args, Py_ssize_t count) {
    Asked asked = {0};
    if (!has_count(count, 4) || ((asked.invalid = PyLong_AsLong(args[2])) < 0 && PyErr_Occurred())) return NULL;
    if (places_in(state_of(self), args, 1, 2, &asked.places) < 0) return NULL;
    return each_row(state_of(self), args[0], args[3], row_events, &asked);
}

static PyObject *srid_of(State *state, const Cell *cell, PyObject *text, Py_ssize_t row) {
    uint32_t srid = 0;
    size_t end = 0;
    wkt_status status = state->srid((const uint8_t *)cell->text, (size_t)cell->length, &srid, &end);
    if (status != WKT_OK) return refused(state, status, text, 0, row);
    return end == 0 ? Py_NewRef(Py_None) : PyLong_FromUnsignedLong(srid);
}

/* text -> the number, or None */
PyObject *fast_srid(PyObject *self, PyObject *text) {
    Cell cell;
    PyObject *held, *made;
    if (text_in(state_of(self), text, &cell, &held) < 0) return NULL;
    made = srid_of(state_of(self), &cell, text, -1);
    Py_XDECREF(held);
    return made;
}

static PyObject *row_srid(Walk *walk, Py_ssize_t i, const Asked *asked) {
    Py_ssize_t row = walk->first + i;
    (void)asked;
    return srid_of(walk->state, &walk->cells[i], row_at(walk->rows, row), row);
}

/* rows -> list of int and None */
PyObject *fast_srid_rows(PyObject *self, PyObject *rows) {
    return each_row(state_of(self), rows, Py_None, row_srid, NULL);
}
