/* wkt._fast: the calls of the library for one text and for columns, without ctypes and without an object for what stands
 * in between; and columns that are lent by Arrow's C interfaces (arrow_in.c, arrow_texts.c, arrow_geo.c,
 * arrow_out.c).
 *
 * The package loads libwkt, and binds its functions here. Of Python this needs the limited API of 3.11 alone, so one wheel
 * serves that version and each later one; free-threaded Python has no limited API, and gets a module of its own. Where it
 * isn't built, wkt/_slow.py does the same by ctypes. */
#include "fast.h"
#include <stddef.h>

/* What can be bound: functions of libwkt by their addresses, and objects of the package. */
#define FUNCTION(name) \
    { "wkt_" #name, offsetof(State, name), 1 }
#define OBJECT(name) \
    { #name, offsetof(State, name), 0 }
static const struct {
    const char *name;
    size_t offset;
    int is_function;
} parts[] = {FUNCTION(canonical), FUNCTION(same),        FUNCTION(infer),  FUNCTION(explain),  FUNCTION(hint),
             FUNCTION(arrays),    FUNCTION(from_arrays), FUNCTION(lines),  FUNCTION(srid),     FUNCTION(read_events),
             OBJECT(places_of),   OBJECT(text_of),       OBJECT(refuse),   OBJECT(refuse_two), OBJECT(refuse_header),
             OBJECT(explanation), OBJECT(array_of),      OBJECT(one_text), OBJECT(Arrays),     OBJECT(Events),
             OBJECT(KINDS),       OBJECT(DIMENSIONS)};
enum { PARTS = sizeof parts / sizeof *parts };

/* The 28 answers of infer. */
static int make_headers(State *state) {
    if (state->KINDS == NULL || state->DIMENSIONS == NULL) return 0;
    for (Py_ssize_t kind = 0; kind < 7; kind++)
        for (Py_ssize_t dimension = 0; dimension < 4; dimension++) {
            PyObject *one = PyTuple_GetItem(state->KINDS, kind), *other = PyTuple_GetItem(state->DIMENSIONS, dimension);
            PyObject *made = one == NULL || other == NULL ? NULL : PyTuple_Pack(2, one, other);
            if (made == NULL) return -1;
            Py_XDECREF(state->headers[kind][dimension]);
            state->headers[kind][dimension] = made;
        }
    return 0;
}

/* bind(name, address or object): the package does so once, when it is imported, and tests do. */
static PyObject *bind(PyObject *self, PyObject *const *args, Py_ssize_t count) {
    State *state = state_of(self);
    if (!has_count(count, 2)) return NULL;
    for (size_t i = 0; i < PARTS; i++) {
        void *part = (char *)state + parts[i].offset;
        if (!PyUnicode_Check(args[0]) || PyUnicode_CompareWithASCIIString(args[0], parts[i].name) != 0) continue;
        if (parts[i].is_function) {
            void *address = PyLong_AsVoidPtr(args[1]);
            if (address == NULL) return PyErr_Occurred() ? NULL : PyErr_Format(PyExc_ValueError, "no address");
            memcpy(part, &address, sizeof address);
        } else {
            PyObject *before;
            memcpy(&before, part, sizeof before);
            Py_INCREF(args[1]);
            memcpy(part, &args[1], sizeof args[1]);
            Py_XDECREF(before);
            if (make_headers(state) < 0) return NULL;
        }
        Py_RETURN_NONE;
    }
    return PyErr_Format(PyExc_KeyError, "%R", args[0]);
}

/* A function that takes its arguments as they stand on the stack. */
#define FAST(name, words) \
    { #name, (PyCFunction)(void (*)(void))fast_##name, METH_FASTCALL, words }
static PyMethodDef methods[] = {
    {"bind", (PyCFunction)(void (*)(void))bind, METH_FASTCALL, "bind(name, address or object)"},
    FAST(canonical,
         "canonical(text, places, whole) -> str. places, whole: or places alone, with all bits, as in all calls"),
    FAST(front, "front(text, places, whole) -> (canonical text, end)"),
    FAST(reads, "reads(text, places, whole) -> bool"),
    FAST(same, "same(one, other, places, whole) -> bool"),
    {"srid", fast_srid, METH_O, "srid(text) -> int or None"},
    {"srid_rows", fast_srid_rows, METH_O, "srid_rows(rows) -> list"},
    FAST(events, "events(text, places, whole) -> Events"),
    FAST(events_rows, "events_rows(rows, places, invalid, report) -> list"),
    {"infer", fast_infer, METH_O, "infer(text) -> (kind, dimension)"},
    FAST(explain, "explain(bytes, places) -> (status, message, start, stop, expected)"),
    FAST(hint, "hint(bytes, places) -> (status, hint)"),
    FAST(lines, "lines(text, places, whole) -> bytes"),
    FAST(canonical_rows, "canonical_rows(rows, places, invalid, report, statuses or None) -> list"),
    FAST(statuses, "statuses(rows or buffers, places, report, are buffers) -> uint32s"),
    FAST(explain_rows, "explain_rows(rows, places, report) -> list"),
    FAST(same_rows, "same_rows(rows, rows or canonical text, places, invalid, report) -> list"),
    FAST(infer_rows, "infer_rows(rows, invalid) -> list"),
    FAST(lines_rows, "lines_rows(rows, places) -> list"),
    FAST(canonical_buffers,
         "canonical_buffers((data, offsets, bits, rows), places, report) -> (data, offsets, statuses)"),
    FAST(keys,
         "keys(column, places or None, keep, report, 16 random bytes) -> (data, offsets, statuses, int32 of each row)"),
    FAST(arrays, "arrays(text, places, whole) -> Arrays"),
    FAST(arrays_rows, "arrays_rows(rows or buffers, places, report, are buffers) -> nine buffers"),
    FAST(arrays_list, "arrays_list(rows, places, invalid, report, whether rings and polygons are shared) -> list"),
    FAST(from_arrays_rows, "from_arrays_rows(rows, places or None, numbered) -> list"),
    FAST(from_arrays_column,
         "from_arrays_column(nine buffers, places) -> (list of str and None, list of statuses), or None"),
    {"arrow_array", arrow_array, METH_VARARGS,
     "arrow_array(schema, array, is GeoArrow) -> (type, array), as of a stream"},
    {"arrow_stream", arrow_stream, METH_VARARGS,
     "arrow_stream(stream, is GeoArrow) -> (what arrow_next takes, (is chosen by indices, metadata)), and of GeoArrow "
     "(lists, axes, metadata)"},
    {"arrow_next", arrow_next, METH_O,
     "arrow_next(stream) -> (data, int64 offsets, bits or b'', texts, int32 indices or None), and of GeoArrow (bits or "
     "b'', rows, doubles or None, int64 offsets of each list); None at the end"},
    {"export", arrow_export, METH_O,
     "export((format, name, metadata, flags, length, nulls, buffers, columns)) -> (schema, array)"},
    {"export_schema", arrow_export_schema, METH_O, "export_schema(such a tuple) -> schema"},
    {"export_stream", arrow_export_stream, METH_VARARGS,
     "export_stream(such a tuple, iterator of such tuples) -> stream"},
    {NULL, NULL, 0, NULL}};

static int made_ready(PyObject *module) {
    State *state = state_of(module);
    state->lent_type = (PyTypeObject *)PyType_FromModuleAndSpec(module, &lent_spec, NULL);
    state->cells_type = (PyTypeObject *)PyType_FromModuleAndSpec(module, &cells_spec, NULL);
    return state->lent_type == NULL || state->cells_type == NULL ? -1 : 0;
}

static int traverse(PyObject *module, visitproc visit, void *arg) {
    State *state = state_of(module);
    for (size_t i = 0; i < PARTS; i++)
        if (!parts[i].is_function) Py_VISIT(*(PyObject **)(void *)((char *)state + parts[i].offset));
    Py_VISIT(state->lent_type);
    Py_VISIT(state->cells_type);
    return 0;
}

static int clear(PyObject *module) {
    State *state = state_of(module);
    for (size_t i = 0; i < PARTS; i++)
        if (!parts[i].is_function) Py_CLEAR(*(PyObject **)(void *)((char *)state + parts[i].offset));
    for (int i = 0; i < 28; i++) Py_CLEAR(state->headers[i / 4][i % 4]);
    Py_CLEAR(state->lent_type);
    Py_CLEAR(state->cells_type);
    return 0;
}

/* All that it holds is in its State, so interpreters may have a lock each. Python 3.12 and later ask for that by a slot
 * that 3.11 refuses. It isn't in the limited API of 3.11, so its numbers stand here. */
enum { MULTIPLE_INTERPRETERS = 3, ITS_OWN_LOCK = 2 };
static PyModuleDef_Slot slots[] = {{MULTIPLE_INTERPRETERS, (void *)ITS_OWN_LOCK},
                                   {Py_mod_exec, made_ready},
#ifdef Py_GIL_DISABLED
                                   {Py_mod_gil, Py_MOD_GIL_NOT_USED},
#endif
                                   {0, NULL}};
#define MODULE(slots) \
    { PyModuleDef_HEAD_INIT, "wkt._fast", NULL, sizeof(State), methods, slots, traverse, clear, NULL }
static struct PyModuleDef module = MODULE(slots), module_of_311 = MODULE(slots + 1);

PyMODINIT_FUNC PyInit__fast(void) { return PyModuleDef_Init(Py_Version < 0x030c0000 ? &module_of_311 : &module); }
