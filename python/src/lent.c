/* Memory that grows, and memory and texts that are lent to Python. */
#include "fast.h"

int room_is(Room *room, size_t wanted) {
    void *grown;
    if (wanted > PY_SSIZE_T_MAX / room->size || (grown = realloc(room->items, wanted * room->size)) == NULL) return -1;
    room->items = grown, room->room = wanted;
    return 0;
}

int room_holds(Room *room, size_t more) {
    size_t wanted = room->used + more;
    if (room->room - room->used >= more) return 0;
    if (wanted < more) return -1;
    return room_is(room, wanted < PY_SSIZE_T_MAX / room->size / 2 ? wanted + wanted / 2 : wanted);
}

/* Bytes as a buffer that keeps what they are of. */
typedef struct {
    PyObject_HEAD
    void *data;
    Py_ssize_t length;
    int writable;
    PyObject *owner;
} Lent;

static void lent_dealloc(PyObject *self) {
    PyTypeObject *type = Py_TYPE(self);
    if (((Lent *)self)->owner == NULL) free(((Lent *)self)->data);
    Py_XDECREF(((Lent *)self)->owner);
    ((freefunc)PyType_GetSlot(type, Py_tp_free))(self);
    Py_DECREF(type);
}

static int lent_buffer(PyObject *self, Py_buffer *view, int flags) {
    Lent *held = (Lent *)self;
    static char none[8];
    return PyBuffer_FillInfo(view, self, held->length == 0 ? none : held->data, held->length, !held->writable, flags);
}

static PyType_Slot lent_slots[] = {{Py_tp_dealloc, lent_dealloc}, {Py_bf_getbuffer, lent_buffer}, {0, NULL}};
PyType_Spec lent_spec = {"wkt._fast.Lent", sizeof(Lent), 0, Py_TPFLAGS_DEFAULT | Py_TPFLAGS_DISALLOW_INSTANTIATION,
                         lent_slots};

PyObject *lent(State *state, const void *data, Py_ssize_t length, PyObject *owner) {
    Lent *made = (Lent *)((allocfunc)PyType_GetSlot(state->lent_type, Py_tp_alloc))(state->lent_type, 0);
    if (made == NULL) return NULL;
    made->data = (void *)data, made->length = length;
    made->owner = Py_XNewRef(owner);
    return (PyObject *)made;
}

/* What is used of a room, which is no one's then. */
PyObject *lent_room(State *state, Room *room, int writable) {
    PyObject *made;
    /* Of what is nearly full nothing is given back: the allocator then finds it whole for the next answer. Of no bytes
     * realloc is free. */
    if (room->used < room->room - room->room / 4 && room->used > 0) {
        void *less = realloc(room->items, room->used * room->size);
        if (less != NULL) room->items = less;
    }
    made = lent(state, room->items, (Py_ssize_t)(room->used * room->size), NULL);
    if (made != NULL) {
        ((Lent *)made)->writable = writable;
        room->items = NULL;
    }
    return made;
}

/* Texts that stand in several places, and what they are of. */
typedef struct {
    PyObject_HEAD
    Cell *cells;
    Py_ssize_t count;
    size_t bytes;
    PyObject *owner;
} Cells;

static void cells_dealloc(PyObject *self) {
    PyTypeObject *type = Py_TYPE(self);
    free(((Cells *)self)->cells);
    Py_XDECREF(((Cells *)self)->owner);
    ((freefunc)PyType_GetSlot(type, Py_tp_free))(self);
    Py_DECREF(type);
}

static Py_ssize_t cells_length(PyObject *self) { return ((Cells *)self)->count; }

/* A text as bytes, or None. */
static PyObject *cells_item(PyObject *self, Py_ssize_t i) {
    const Cells *held = (Cells *)self;
    if (i < 0 || i >= held->count) return PyErr_SetString(PyExc_IndexError, "so many texts"), NULL;
    if (held->cells[i].text == NULL) return Py_NewRef(Py_None);
    return PyBytes_FromStringAndSize(held->cells[i].text, held->cells[i].length);
}

static PyType_Slot cells_slots[] = {
    {Py_tp_dealloc, cells_dealloc}, {Py_sq_length, cells_length}, {Py_sq_item, cells_item}, {0, NULL}};
PyType_Spec cells_spec = {"wkt._fast.Cells", sizeof(Cells), 0, Py_TPFLAGS_DEFAULT | Py_TPFLAGS_DISALLOW_INSTANTIATION,
                          cells_slots};

PyObject *lent_cells(State *state, Cell *cells, Py_ssize_t count, PyObject *owner) {
    Cells *made = (Cells *)((allocfunc)PyType_GetSlot(state->cells_type, Py_tp_alloc))(state->cells_type, 0);
    if (made == NULL) return free(cells), NULL;
    made->cells = cells, made->count = count, made->owner = Py_NewRef(owner);
    for (Py_ssize_t i = 0; i < count; i++) made->bytes += (size_t)cells[i].length;
    return (PyObject *)made;
}

const Cell *cells_of(State *state, PyObject *from, Py_ssize_t *count, size_t *bytes) {
    const Cells *held = (Cells *)from;
    if (!PyObject_TypeCheck(from, state->cells_type)) return NULL;
    *count = held->count, *bytes = held->bytes;
    return held->cells;
}
