/* Texts, one by one: each call takes what wkt_*.py give, and raises what they raise. */
#include "fast.h"

wkt_status answer(State *state, const Cell *cell, uint32_t places, Room *out, size_t *end) {
    size_t needed, likely = (size_t)cell->length + (size_t)cell->length / 8 + MORE_ROOM;
    for (;;) {
        wkt_status status;
        if (room_holds(out, likely) < 0) return WKT_NO_MEMORY;
        status = state->canonical((const uint8_t *)cell->text, (size_t)cell->length, places,
                                  (uint8_t *)out->items + out->used, out->room - out->used, &needed, end);
        if (status == WKT_OK) out->used += needed;
        if (status != WKT_TOO_SMALL) return status;
        likely = needed;
    }
}

/* The canonical text of a text; *end: where its geometry ends. */
static PyObject *canonical_of(State *state, PyObject *const *args, Py_ssize_t count, size_t *end) {
    char small[512];
    Room out = {small, 1, 0, sizeof small};
    Cell cell;
    uint32_t places;
    wkt_status status = WKT_TOO_SMALL;
    size_t needed = 0;
    PyObject *held, *made = NULL;
    if (places_in(state, args, 1, count, &places) < 0 || text_in(state, args[0], &cell, &held) < 0) return NULL;
    if (cell.length <= 200) /* its answer has 465 bytes at most, but for dialects */
        status = state->canonical((const uint8_t *)cell.text, (size_t)cell.length, places, (uint8_t *)small,
                                  sizeof small, &needed, end);
    if (status == WKT_TOO_SMALL) {
        out = (Room){NULL, 1, 0, 0};
        Py_BEGIN_ALLOW_THREADS
        status = answer(state, &cell, places, &out, end);
        Py_END_ALLOW_THREADS
        needed = out.used;
    }
    if (status == WKT_OK)
        made = PyUnicode_FromStringAndSize(out.items, (Py_ssize_t)needed);
    else
        refused(state, status, args[0], places, -1);
    if (out.items != small) free(out.items);
    Py_XDECREF(held);
    return made;
}

PyObject *fast_canonical(PyObject *self, PyObject *const *args, Py_ssize_t count) {
    size_t end;
    return canonical_of(state_of(self), args, count, &end);
}

/* (text, places, whole) -> (canonical text, end). What stands before the end is ASCII, so that counts characters too. */
PyObject *fast_front(PyObject *self, PyObject *const *args, Py_ssize_t count) {
    size_t end = 0;
    PyObject *made = canonical_of(state_of(self), args, count, &end);
    return made == NULL ? NULL : Py_BuildValue("Nn", made, (Py_ssize_t)end);
}

/* Whether a text is read: its answer finds no room. */
wkt_status status_of(State *state, const Cell *cell, uint32_t places) {
    size_t needed, end;
    wkt_status status =
        state->canonical((const uint8_t *)cell->text, (size_t)cell->length, places, NULL, 0, &needed, &end);
    return status == WKT_TOO_SMALL ? WKT_OK : status;
}

PyObject *fast_reads(PyObject *self, PyObject *const *args, Py_ssize_t count) {
    State *state = state_of(self);
    Cell cell;
    uint32_t places;
    wkt_status status;
    PyObject *held;
    if (places_in(state, args, 1, count, &places) < 0 || text_in(state, args[0], &cell, &held) < 0) return NULL;
    if (cell.length < LONG_TEXT) {
        status = status_of(state, &cell, places);
    } else {
        Py_BEGIN_ALLOW_THREADS
        status = status_of(state, &cell, places);
        Py_END_ALLOW_THREADS
    }
    Py_XDECREF(held);
    return status == WKT_NO_MEMORY ? PyErr_NoMemory() : PyBool_FromLong(status == WKT_OK);
}

wkt_status compared(State *state, const Cell *one, const Cell *other, uint32_t places, uint32_t *same) {
    return state->same((const uint8_t *)one->text, (size_t)one->length, (const uint8_t *)other->text,
                       (size_t)other->length, places, same);
}

PyObject *fast_same(PyObject *self, PyObject *const *args, Py_ssize_t count) {
    State *state = state_of(self);
    Cell one, other;
    uint32_t places, same = 0;
    wkt_status status;
    PyObject *held, *its_held;
    if (places_in(state, args, 2, count, &places) < 0 || text_in(state, args[0], &one, &held) < 0) return NULL;
    if (text_in(state, args[1], &other, &its_held) < 0) {
        Py_XDECREF(held);
        return NULL;
    }
    if (one.length + other.length < LONG_TEXT) {
        status = compared(state, &one, &other, places, &same);
    } else {
        Py_BEGIN_ALLOW_THREADS
        status = compared(state, &one, &other, places, &same);
        Py_END_ALLOW_THREADS
    }
    Py_XDECREF(held);
    Py_XDECREF(its_held);
    if (status == WKT_OK) return PyBool_FromLong((long)same);
    if (status == WKT_NO_MEMORY) return PyErr_NoMemory();
    return PyObject_CallFunction(state->refuse_two, "IOOIO", status, args[0], args[1], places, Py_None);
}

PyObject *fast_infer(PyObject *self, PyObject *text) {
    State *state = state_of(self);
    uint32_t kind = 0, dimension = 0;
    Cell cell;
    PyObject *held;
    wkt_status status;
    if (text_in(state, text, &cell, &held) < 0) return NULL;
    status = state->infer((const uint8_t *)cell.text, (size_t)cell.length, &kind, &dimension);
    Py_XDECREF(held);
    if (status != WKT_OK) return PyObject_CallFunction(state->refuse_header, "IO", status, Py_None);
    return Py_NewRef(state->headers[kind % 7][dimension % 4]);
}

Why why_of(State *state, const Cell *cell, uint32_t places) {
    Why why = {0};
    why.status = state->explain((const uint8_t *)cell->text, (size_t)cell->length, places, &why.message, &why.start,
                                &why.stop, &why.expected);
    return why;
}

/* (bytes, places) -> (status, message, start, stop, expected) */
PyObject *fast_explain(PyObject *self, PyObject *const *args, Py_ssize_t count) {
    State *state = state_of(self);
    char *text;
    Cell cell;
    unsigned long places;
    Why why;
    if (!has_count(count, 2) || PyBytes_AsStringAndSize(args[0], &text, &cell.length) < 0) return NULL;
    if ((places = PyLong_AsUnsignedLong(args[1])) == (unsigned long)-1 && PyErr_Occurred()) return NULL;
    cell.text = text;
    Py_BEGIN_ALLOW_THREADS
    why = why_of(state, &cell, (uint32_t)places);
    Py_END_ALLOW_THREADS
    return Py_BuildValue("IInnI", why.status, why.message, (Py_ssize_t)why.start, (Py_ssize_t)why.stop, why.expected);
}

/* (bytes, places) -> (status, hint) */
PyObject *fast_hint(PyObject *self, PyObject *const *args, Py_ssize_t count) {
    State *state = state_of(self);
    uint32_t hint = 0;
    char *text;
    Py_ssize_t length;
    unsigned long places;
    wkt_status status;
    if (!has_count(count, 2) || PyBytes_AsStringAndSize(args[0], &text, &length) < 0) return NULL;
    if ((places = PyLong_AsUnsignedLong(args[1])) == (unsigned long)-1 && PyErr_Occurred()) return NULL;
    Py_BEGIN_ALLOW_THREADS
    status = state->hint((const uint8_t *)text, (size_t)length, (uint32_t)places, &hint);
    Py_END_ALLOW_THREADS
    return Py_BuildValue("II", status, hint);
}

/* The answers to some lines, behind those before them. */
static wkt_status lines_answer(State *state, const char *text, Py_ssize_t length, uint32_t places, Room *out) {
    size_t needed, likely = (size_t)length + (size_t)length / 8 + 64;
    for (;;) {
        wkt_status status;
        if (room_holds(out, likely) < 0) return WKT_NO_MEMORY;
        status = state->lines((const uint8_t *)text, (size_t)length, places, (uint8_t *)out->items + out->used,
                              out->room - out->used, &needed);
        if (status == WKT_OK) out->used += needed;
        if (status != WKT_TOO_SMALL) return status;
        likely = needed;
    }
}

/* How long the next whole lines are: about a block of them. */
static Py_ssize_t next_lines(const Cell *text, Py_ssize_t done) {
    Py_ssize_t left = text->length - done;
    const char *start = text->text + done, *end = NULL;
    if (left > MOST_BYTES) end = memchr(start + MOST_BYTES, '\n', (size_t)(left - MOST_BYTES));
    return end == NULL ? left : end + 1 - start;
}

/* (text, places, False) -> bytes: the answer to each line */
PyObject *fast_lines(PyObject *self, PyObject *const *args, Py_ssize_t count) {
    State *state = state_of(self);
    Room out = {NULL, 1, 0, 0};
    Cell text;
    uint32_t places;
    wkt_status status = WKT_OK;
    PyObject *held, *made = NULL;
    int stopped = 0;
    if (places_in(state, args, 1, count, &places) < 0 || text_in(state, args[0], &text, &held) < 0) return NULL;
    for (Py_ssize_t done = 0; status == WKT_OK && !stopped && done < text.length;) {
        Py_ssize_t length = next_lines(&text, done);
        Py_BEGIN_ALLOW_THREADS
        status = lines_answer(state, text.text + done, length, places, &out);
        Py_END_ALLOW_THREADS
        done += length;
        stopped = PyErr_CheckSignals() < 0;
    }
    if (status != WKT_OK)
        refused(state, status, args[0], places, -1);
    else if (!stopped)
        made = PyBytes_FromStringAndSize(out.items, (Py_ssize_t)out.used);
    free(out.items);
    Py_XDECREF(held);
    return made;
}

/* The statuses of a block, behind those before it. Returns WKT_NO_MEMORY where one is that. */
static wkt_status block_statuses(const Walk *walk, uint32_t places, Room *all) {
    Py_ssize_t rows = walk->last - walk->first;
    if (room_holds(all, (size_t)rows) < 0) return WKT_NO_MEMORY;
    for (Py_ssize_t i = 0; i < rows; i++) {
        Cell cell = walk_cell(walk, i);
        wkt_status status = cell.text == NULL ? WKT_NULL : status_of(walk->state, &cell, places);
        if (status == WKT_NO_MEMORY) return WKT_NO_MEMORY;
        ((uint32_t *)all->items)[all->used++] = status;
    }
    return WKT_OK;
}

/* (rows or (data, offsets, bits, rows), places, report, whether those are buffers) -> the status of each row, as 32 bits each */
PyObject *fast_statuses(PyObject *self, PyObject *const *args, Py_ssize_t count) {
    Room all = {NULL, sizeof(uint32_t), 0, 0};
    State *state = state_of(self);
    Walk walk;
    PyObject *made = NULL;
    unsigned long places;
    int more;
    if (!has_count(count, 4) || (places = PyLong_AsUnsignedLong(args[1])) > UINT32_MAX) return NULL;
    more = args[3] == Py_True ? walk_buffers(&walk, state, args[0], args[2])
                              : walk_rows(&walk, state, args[0], NULL, args[2]);
    while (more >= 0 && (more = walk_next(&walk)) > 0) {
        wkt_status status;
        Py_BEGIN_ALLOW_THREADS
        status = block_statuses(&walk, (uint32_t)places, &all);
        Py_END_ALLOW_THREADS
        if (status != WKT_OK) more = (PyErr_NoMemory(), -1);
    }
    walk_end(&walk);
    if (more == 0) made = lent_room(state, &all, 1);
    free(all.items);
    return made;
}
