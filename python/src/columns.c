/* Lists of texts: each row is answered by the call for one text, a block at a time, while other threads run. */
#include "fast.h"

enum { RAISE, NULLS, KEEP }; /* what becomes of a refused row */

/* The answers of a block, one behind the other: row i's ends at ends[i]. */
static wkt_status block_answers(const Walk *walk, uint32_t places, Room *out, size_t *ends) {
    size_t end;
    out->used = 0;
    for (Py_ssize_t i = 0; i < walk->last - walk->first; i++) {
        const Cell *cell = &walk->cells[i];
        walk->statuses[i] = cell->text == NULL ? WKT_NULL : answer(walk->state, cell, places, out, &end);
        if (walk->statuses[i] == WKT_NO_MEMORY) return WKT_NO_MEMORY;
        ends[i] = out->used;
    }
    return WKT_OK;
}

/* What such calls need: a walk, and room for the answers of a block. */
typedef struct {
    Walk walk;
    uint32_t places;
    Room out, ends;
} Answers;

static int answers_start(Answers *all, State *state, PyObject *rows, PyObject *other, PyObject *places,
                         PyObject *report) {
    unsigned long value = PyLong_AsUnsignedLong(places);
    *all = (Answers){.out = {NULL, 1, 0, 0}, .ends = {NULL, sizeof(size_t), 0, 0}};
    all->places = (uint32_t)value;
    if (value > UINT32_MAX) return -1;
    return walk_rows(&all->walk, state, rows, other, report);
}

static int answers_next(Answers *all) {
    wkt_status status;
    int more = walk_next(&all->walk);
    if (more <= 0) return more;
    all->ends.used = 0;
    Py_BEGIN_ALLOW_THREADS
    status = room_holds(&all->ends, (size_t)(all->walk.last - all->walk.first)) < 0
                 ? WKT_NO_MEMORY
                 : block_answers(&all->walk, all->places, &all->out, all->ends.items);
    Py_END_ALLOW_THREADS
    return status == WKT_OK ? 1 : (PyErr_NoMemory(), -1);
}

static void answers_end(Answers *all) {
    walk_end(&all->walk);
    free(all->out.items);
    free(all->ends.items);
}

/* Answer i of the block. */
static Cell answer_at(const Answers *all, Py_ssize_t i) {
    const size_t *ends = all->ends.items;
    size_t start = i == 0 ? 0 : ends[i - 1];
    return (Cell){(const char *)all->out.items + start, (Py_ssize_t)(ends[i] - start)};
}

/* A str of an answer: the row itself, if it is one already. */
static PyObject *text_of(PyObject *row, const Cell *given, const Cell *made) {
    if (given->length == made->length && PyUnicode_CheckExact(row) &&
        memcmp(given->text, made->text, (size_t)made->length) == 0)
        return Py_NewRef(row);
    return PyUnicode_FromStringAndSize(made->text, made->length);
}

/* Takes a reference. */
static int append(PyObject *list, PyObject *item) {
    int failed = item == NULL ? -1 : PyList_Append(list, item);
    Py_XDECREF(item);
    return failed;
}

static PyObject *row_answer(Answers *all, Py_ssize_t i, int invalid) {
    Walk *walk = &all->walk;
    PyObject *row = row_at(walk->rows, walk->first + i);
    Cell made = answer_at(all, i);
    if (walk->statuses[i] == WKT_OK) return text_of(row, &walk->cells[i], &made);
    if (walk->statuses[i] == WKT_NULL || invalid == NULLS) return Py_NewRef(Py_None);
    if (invalid == KEEP) return Py_NewRef(row);
    return refused(walk->state, walk->statuses[i], row, all->places, walk->first + i);
}

/* (rows, places, 0 "raise", 1 "null" or 2 "keep", report, a list of statuses or None) -> list of str and None */
PyObject *fast_canonical_rows(PyObject *self, PyObject *const *args, Py_ssize_t count) {
    Answers all;
    PyObject *texts = NULL;
    long invalid;
    int more = -1;
    if (!has_count(count, 5) || ((invalid = PyLong_AsLong(args[2])) < 0 && PyErr_Occurred())) return NULL;
    if (args[4] != Py_None && !PyList_Check(args[4])) return PyErr_SetString(PyExc_TypeError, "statuses: a list"), NULL;
    if (answers_start(&all, state_of(self), args[0], NULL, args[1], args[3]) == 0 && (texts = PyList_New(0)) != NULL)
        while ((more = answers_next(&all)) > 0)
            for (Py_ssize_t i = 0; i < all.walk.last - all.walk.first; i++) {
                more = append(texts, row_answer(&all, i, (int)invalid));
                if (more == 0 && args[4] != Py_None)
                    more = append(args[4], PyLong_FromLong((long)all.walk.statuses[i]));
                if (more < 0) goto done;
            }
done:
    answers_end(&all);
    if (more < 0) Py_CLEAR(texts);
    return texts;
}

/* What the package makes of why a row is refused; None of one that is read or null. */
static PyObject *explanation(const Walk *walk, Py_ssize_t i, uint32_t places, const Why *why) {
    PyObject *row = row_at(walk->rows, walk->first + i);
    if (why->status == WKT_ACCEPTED || why->status == WKT_NULL) return Py_NewRef(Py_None);
    return PyObject_CallFunction(walk->state->explanation, "OIIInnI", row, places, why->status, why->message,
                                 (Py_ssize_t)why->start, (Py_ssize_t)why->stop, why->expected);
}

/* (rows, places, report) -> list of explanations and None */
PyObject *fast_explain_rows(PyObject *self, PyObject *const *args, Py_ssize_t count) {
    Room whys = {NULL, sizeof(Why), 0, 0};
    PyObject *made = NULL;
    unsigned long places;
    Walk walk;
    int more = -1;
    if (!has_count(count, 3) || (places = PyLong_AsUnsignedLong(args[1])) > UINT32_MAX) return NULL;
    if (walk_rows(&walk, state_of(self), args[0], NULL, args[2]) == 0 && (made = PyList_New(0)) != NULL)
        while ((more = walk_next(&walk)) > 0) {
            Py_ssize_t rows = walk.last - walk.first;
            if (room_holds(&whys, (size_t)rows) < 0) more = (PyErr_NoMemory(), -1);
            Py_BEGIN_ALLOW_THREADS
            for (Py_ssize_t i = 0; more >= 0 && i < rows; i++)
                ((Why *)whys.items)[i] = walk.cells[i].text == NULL
                                             ? (Why){.status = WKT_NULL}
                                             : why_of(walk.state, &walk.cells[i], (uint32_t)places);
            Py_END_ALLOW_THREADS
            for (Py_ssize_t i = 0; more >= 0 && i < rows; i++)
                more = append(made, explanation(&walk, i, (uint32_t)places, (Why *)whys.items + i));
            if (more < 0) break;
        }
    walk_end(&walk);
    free(whys.items);
    if (more < 0) Py_CLEAR(made);
    return made;
}

/* The rows of a block of two columns, each beside the other. A refused row has its status in `ones` or `others`. */
typedef struct {
    uint32_t same, one, other;
} Pair;

static wkt_status block_pairs(const Walk *walk, uint32_t places, Pair *pairs) {
    for (Py_ssize_t i = 0; i < walk->last - walk->first; i++) {
        const Cell *one = &walk->cells[i], *other = &walk->others[i];
        wkt_status status;
        pairs[i] = (Pair){0, WKT_NULL, WKT_NULL};
        if (one->text == NULL || other->text == NULL) continue;
        pairs[i] = (Pair){0, WKT_OK, WKT_OK};
        if ((status = compared(walk->state, one, other, places, &pairs[i].same)) == WKT_OK) continue;
        if (status != WKT_NO_MEMORY && (pairs[i].one = status_of(walk->state, one, places)) == WKT_OK)
            pairs[i].other = status_of(walk->state, other, places);
        if (status == WKT_NO_MEMORY || pairs[i].one == WKT_NO_MEMORY || pairs[i].other == WKT_NO_MEMORY)
            return WKT_NO_MEMORY;
    }
    return WKT_OK;
}

static PyObject *pair_answer(const Walk *walk, const Pair *pair, Py_ssize_t row, uint32_t places, int invalid) {
    if (pair->one == WKT_OK && pair->other == WKT_OK) return PyBool_FromLong((long)pair->same);
    if (pair->one == WKT_NULL || invalid != RAISE) return Py_NewRef(Py_None);
    if (pair->one != WKT_OK) return refused(walk->state, pair->one, row_at(walk->rows, row), places, row);
    return refused(walk->state, pair->other, row_at(walk->other, row), places, row);
}

static int same_blocks(Walk *walk, uint32_t places, int invalid, PyObject *answers) {
    Room pairs = {NULL, sizeof(Pair), 0, 0};
    int more;
    while ((more = walk_next(walk)) > 0) {
        wkt_status status = WKT_NO_MEMORY;
        Py_BEGIN_ALLOW_THREADS
        if (room_holds(&pairs, (size_t)(walk->last - walk->first)) == 0)
            status = block_pairs(walk, places, pairs.items);
        Py_END_ALLOW_THREADS
        if (status != WKT_OK) more = (PyErr_NoMemory(), -1);
        for (Py_ssize_t i = 0; more >= 0 && i < walk->last - walk->first; i++)
            more = append(answers, pair_answer(walk, (Pair *)pairs.items + i, walk->first + i, places, invalid));
        if (more < 0) break;
    }
    free(pairs.items);
    return more;
}

/* The rows of a column beside one canonical text. */
static int same_as(Answers *all, const Cell *wanted, int invalid, PyObject *answers) {
    int more;
    while ((more = answers_next(all)) > 0)
        for (Py_ssize_t i = 0; i < all->walk.last - all->walk.first; i++) {
            Cell made = answer_at(all, i);
            PyObject *answer = all->walk.statuses[i] != WKT_OK
                                   ? row_answer(all, i, invalid)
                                   : PyBool_FromLong(made.length == wanted->length &&
                                                     memcmp(made.text, wanted->text, (size_t)made.length) == 0);
            if (append(answers, answer) < 0) return -1;
        }
    return more;
}

/* (rows, rows or a canonical text, places, 0 "raise" or 1 "null", report) -> list of bool and None */
PyObject *fast_same_rows(PyObject *self, PyObject *const *args, Py_ssize_t count) {
    State *state = state_of(self);
    PyObject *answers = NULL;
    Answers all;
    Cell wanted;
    long invalid;
    int more = -1, one;
    if (!has_count(count, 5) || ((invalid = PyLong_AsLong(args[3])) < 0 && PyErr_Occurred())) return NULL;
    one = PyUnicode_Check(args[1]);
    if (one && (wanted.text = PyUnicode_AsUTF8AndSize(args[1], &wanted.length)) == NULL) return NULL;
    if (answers_start(&all, state, args[0], one ? NULL : args[1], args[2], args[4]) == 0 &&
        (answers = PyList_New(0)) != NULL)
        more = one ? same_as(&all, &wanted, (int)invalid, answers)
                   : same_blocks(&all.walk, all.places, (int)invalid, answers);
    answers_end(&all);
    if (more < 0) Py_CLEAR(answers);
    return answers;
}

PyObject *each_row(State *state, PyObject *rows, PyObject *report, RowAnswer *answer_of, const Asked *asked) {
    PyObject *made = NULL;
    Walk walk;
    int more = -1;
    if (walk_rows(&walk, state, rows, NULL, report) == 0 && (made = PyList_New(0)) != NULL)
        while ((more = walk_next(&walk)) > 0)
            for (Py_ssize_t i = 0; i < walk.last - walk.first; i++) {
                int is_null = walk.cells[i].text == NULL;
                more = append(made, is_null ? Py_NewRef(Py_None) : answer_of(&walk, i, asked));
                if (more < 0) goto done;
            }
done:
    walk_end(&walk);
    if (more < 0) Py_CLEAR(made);
    return made;
}

static PyObject *header_of(Walk *walk, Py_ssize_t i, const Asked *asked) {
    const Cell *cell = &walk->cells[i];
    uint32_t kind = 0, dimension = 0;
    wkt_status status = walk->state->infer((const uint8_t *)cell->text, (size_t)cell->length, &kind, &dimension);
    if (status == WKT_OK) return Py_NewRef(walk->state->headers[kind % 7][dimension % 4]);
    if (asked->invalid != RAISE) return Py_NewRef(Py_None);
    return PyObject_CallFunction(walk->state->refuse_header, "In", status, walk->first + i);
}

/* (rows, 0 "raise" or 1 "null") -> list of (kind, dimension) and None */
PyObject *fast_infer_rows(PyObject *self, PyObject *const *args, Py_ssize_t count) {
    Asked asked = {0};
    if (!has_count(count, 2) || ((asked.invalid = PyLong_AsLong(args[1])) < 0 && PyErr_Occurred())) return NULL;
    return each_row(state_of(self), args[0], Py_None, header_of, &asked);
}

static PyObject *line_of(Answers *all, Py_ssize_t i, PyObject *no_line) {
    const Cell *cell = &all->walk.cells[i];
    Cell made = answer_at(all, i);
    if (cell->text == NULL) return Py_NewRef(Py_None);
    if (memchr(cell->text, '\n', (size_t)cell->length) != NULL) {
        PyErr_SetString(PyExc_ValueError, "a text of a column holds a line feed");
        return NULL;
    }
    if (all->walk.statuses[i] != WKT_OK) return Py_NewRef(no_line);
    return text_of(row_at(all->walk.rows, all->walk.first + i), cell, &made);
}

/* (rows, places) -> list of str and None: the answer of each row as a line */
PyObject *fast_lines_rows(PyObject *self, PyObject *const *args, Py_ssize_t count) {
    PyObject *made = NULL, *no_line;
    Answers all;
    int more = -1;
    if (!has_count(count, 2) || (no_line = PyUnicode_FromString("refused")) == NULL) return NULL;
    if (answers_start(&all, state_of(self), args[0], NULL, args[1], Py_None) == 0 && (made = PyList_New(0)) != NULL)
        while ((more = answers_next(&all)) > 0)
            for (Py_ssize_t i = 0; i < all.walk.last - all.walk.first; i++)
                if ((more = append(made, line_of(&all, i, no_line))) < 0) goto done;
done:
    answers_end(&all);
    Py_DECREF(no_line);
    if (more < 0) Py_CLEAR(made);
    return made;
}

/* The answers of a block of buffers, behind those before it. */
static wkt_status buffer_answers(const Walk *walk, uint32_t places, Room *out, Room *ends, Room *statuses) {
    size_t rows = (size_t)(walk->last - walk->first), end;
    if (room_holds(ends, rows) < 0 || room_holds(statuses, rows) < 0) return WKT_NO_MEMORY;
    for (size_t i = 0; i < rows; i++) {
        Cell cell = walk_cell(walk, (Py_ssize_t)i);
        wkt_status status = cell.text == NULL ? WKT_NULL : answer(walk->state, &cell, places, out, &end);
        if (status == WKT_NO_MEMORY) return WKT_NO_MEMORY;
        ((uint32_t *)statuses->items)[statuses->used++] = status;
        ((int64_t *)ends->items)[ends->used++] = (int64_t)out->used;
    }
    return WKT_OK;
}

/* (column, places, report) -> (data, offsets, statuses) as buffers. column: as of walk_buffers. The room for all is taken
 * once: so it stays whole for the next answer, and the system needn't give each page anew. */
PyObject *fast_canonical_buffers(PyObject *self, PyObject *const *args, Py_ssize_t count) {
    State *state = state_of(self);
    Room out = {NULL, 1, 0, 0}, ends = {NULL, 8, 0, 0}, statuses = {NULL, 4, 0, 0};
    PyObject *made = NULL;
    unsigned long places;
    Walk walk;
    int more;
    if (!has_count(count, 3) || (places = PyLong_AsUnsignedLong(args[1])) > UINT32_MAX) return NULL;
    more = walk_buffers(&walk, state, args[0], args[2]);
    if (more == 0 &&
        (room_is(&ends, (size_t)walk.count + 1) < 0 || room_is(&out, walk.bytes + walk.bytes / 8 + MORE_ROOM) < 0))
        more = (PyErr_NoMemory(), -1);
    if (more == 0) ((int64_t *)ends.items)[ends.used++] = 0;
    while (more >= 0 && (more = walk_next(&walk)) > 0) {
        wkt_status status;
        Py_BEGIN_ALLOW_THREADS
        status = buffer_answers(&walk, (uint32_t)places, &out, &ends, &statuses);
        Py_END_ALLOW_THREADS
        if (status != WKT_OK) more = (PyErr_NoMemory(), -1);
    }
    walk_end(&walk);
    if (more == 0)
        made =
            Py_BuildValue("NNN", lent_room(state, &out, 0), lent_room(state, &ends, 0), lent_room(state, &statuses, 0));
    free(out.items);
    free(ends.items);
    free(statuses.items);
    return made;
}
