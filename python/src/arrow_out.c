/* Arrow columns that this module lends. What a structure holds is released in C: a schema's by free alone, an
 * array's buffers with the lock of the interpreter. Where the interpreter has ended they stay, since nothing of Python
 * may be called there; a consumer may so keep an array for as long as it wants.
 *
 * A column is described by a tuple: (format, name, metadata, flags, length, nulls, buffers, columns in it), and behind
 * these a dictionary, if it has one. */
#include "arrow.h"
#include <errno.h>
#include <stdlib.h>
#include <string.h>

typedef struct {
    const char *format, *name, *metadata;
    Py_ssize_t metadata_length;
    int flags;
    long long length, nulls;
    PyObject *buffers, *columns, *dictionary;
    Py_ssize_t count, all; /* of columns; and with the dictionary */
} Tree;

static int read_tree(PyObject *given, Tree *tree) {
    if (!PyTuple_Check(given)) {
        PyErr_SetString(PyExc_TypeError, "a column is described by a tuple");
        return -1;
    }
    tree->dictionary = NULL;
    if (!PyArg_ParseTuple(given, "ssy#iLLOO|O", &tree->format, &tree->name, &tree->metadata, &tree->metadata_length,
                          &tree->flags, &tree->length, &tree->nulls, &tree->buffers, &tree->columns, &tree->dictionary))
        return -1;
    if (!PyTuple_Check(tree->buffers) || !PyTuple_Check(tree->columns)) {
        PyErr_SetString(PyExc_TypeError, "the buffers and the columns of a column are tuples");
        return -1;
    }
    tree->count = PyTuple_Size(tree->columns), tree->all = tree->count + (tree->dictionary != NULL);
    return 0;
}

/* Column i; behind the last the dictionary. */
static PyObject *column_of(const Tree *tree, Py_ssize_t i) {
    return i < tree->count ? PyTuple_GetItem(tree->columns, i) : tree->dictionary;
}

/* What a schema holds: its strings in one piece, and its columns. */
typedef struct {
    struct ArrowSchema **children, *column;
    char strings[];
} SchemaPart;

static void release_schema(struct ArrowSchema *schema) {
    SchemaPart *part = schema->private_data;
    for (int64_t i = 0; i < schema->n_children + (schema->dictionary != NULL); i++)
        if (part->children[i]->release != NULL) part->children[i]->release(part->children[i]);
    free(part->children);
    free(part->column);
    free(part);
    schema->release = NULL;
}

/* Room for so many columns, all of them released. */
static int room_for(Py_ssize_t count, size_t size, void ***children, void **column) {
    *children = calloc((size_t)count + 1, sizeof(void *));
    *column = calloc((size_t)count + 1, size);
    if (*children == NULL || *column == NULL) {
        PyErr_NoMemory();
        return -1;
    }
    for (Py_ssize_t i = 0; i < count; i++) (*children)[i] = (char *)*column + (size_t)i * size;
    return 0;
}

static int make_schema(PyObject *given, struct ArrowSchema *schema) {
    Tree tree;
    size_t format, name;
    SchemaPart *part;
    if (read_tree(given, &tree) < 0) return -1;
    format = strlen(tree.format) + 1, name = strlen(tree.name) + 1;
    part = calloc(1, sizeof *part + format + name + (size_t)tree.metadata_length);
    if (part == NULL) return PyErr_NoMemory(), -1;
    memcpy(part->strings, tree.format, format);
    memcpy(part->strings + format, tree.name, name);
    memcpy(part->strings + format + name, tree.metadata, (size_t)tree.metadata_length);
    *schema = (struct ArrowSchema){.format = part->strings,
                                   .name = part->strings + format,
                                   .flags = tree.flags,
                                   .metadata = tree.metadata_length ? part->strings + format + name : NULL,
                                   .release = release_schema,
                                   .private_data = part};
    if (room_for(tree.all, sizeof *part->column, (void ***)&part->children, (void **)&part->column) < 0) goto failed;
    schema->children = part->children;
    schema->n_children = tree.count;
    if (tree.all > tree.count) schema->dictionary = part->children[tree.count];
    for (Py_ssize_t i = 0; i < tree.all; i++)
        if (make_schema(column_of(&tree, i), part->children[i]) < 0) goto failed;
    return 0;
failed:
    release_schema(schema);
    return -1;
}

enum { MOST = 3 };

/* What an array holds: its buffers, as Python lends them, and its columns. */
typedef struct {
    struct ArrowArray **children, *column;
    int held;
    Py_buffer views[MOST];
    const void *buffers[MOST];
} ArrayPart;

static void release_array(struct ArrowArray *array) {
    ArrayPart *part = array->private_data;
    array->release = NULL;
    for (int64_t i = 0; i < array->n_children + (array->dictionary != NULL); i++)
        if (part->children[i]->release != NULL) part->children[i]->release(part->children[i]);
    if (part->held > 0) {
        PyGILState_STATE state;
        Aside raised;
        if (!Py_IsInitialized()) return;
        state = PyGILState_Ensure();
        raised = set_aside();
        for (int i = 0; i < part->held; i++)
            if (part->views[i].obj != NULL) PyBuffer_Release(&part->views[i]);
        raise_again(raised);
        PyGILState_Release(state);
    }
    free(part->children);
    free(part->column);
    free(part);
}

static int hold(ArrayPart *part, PyObject *buffers) {
    for (Py_ssize_t i = 0; i < PyTuple_Size(buffers); i++) {
        PyObject *buffer = PyTuple_GetItem(buffers, i);
        if (buffer != Py_None && PyObject_GetBuffer(buffer, &part->views[i], PyBUF_SIMPLE) < 0) return -1;
        part->buffers[i] = part->views[i].buf;
        part->held = (int)i + 1;
    }
    return 0;
}

static int make_array(PyObject *given, struct ArrowArray *array) {
    Tree tree;
    ArrayPart *part;
    if (read_tree(given, &tree) < 0) return -1;
    if (PyTuple_Size(tree.buffers) > MOST)
        return PyErr_SetString(PyExc_ValueError, "a column has three buffers at most"), -1;
    if ((part = calloc(1, sizeof *part)) == NULL) return PyErr_NoMemory(), -1;
    *array = (struct ArrowArray){.length = tree.length,
                                 .null_count = tree.nulls,
                                 .n_buffers = PyTuple_Size(tree.buffers),
                                 .buffers = part->buffers,
                                 .release = release_array,
                                 .private_data = part};
    if (hold(part, tree.buffers) < 0) goto failed;
    if (room_for(tree.all, sizeof *part->column, (void ***)&part->children, (void **)&part->column) < 0) goto failed;
    array->children = part->children;
    array->n_children = tree.count;
    if (tree.all > tree.count) array->dictionary = part->children[tree.count];
    for (Py_ssize_t i = 0; i < tree.all; i++)
        if (make_array(column_of(&tree, i), part->children[i]) < 0) goto failed;
    return 0;
failed:
    release_array(array);
    return -1;
}

END_OF_CAPSULE(free_schema, ArrowSchema, "arrow_schema")
END_OF_CAPSULE(free_array, ArrowArray, "arrow_array")
END_OF_CAPSULE(free_stream, ArrowArrayStream, "arrow_array_stream")

/* A capsule of a structure of so many bytes, which is empty. */
static PyObject *capsule_of(size_t size, const char *name, PyCapsule_Destructor end, void **structure) {
    PyObject *capsule;
    if ((*structure = calloc(1, size)) == NULL) return PyErr_NoMemory();
    if ((capsule = PyCapsule_New(*structure, name, end)) == NULL) free(*structure);
    return capsule;
}

PyObject *arrow_export_schema(PyObject *self, PyObject *tree) {
    void *schema;
    PyObject *capsule = capsule_of(sizeof(struct ArrowSchema), "arrow_schema", free_schema, &schema);
    (void)self;
    if (capsule != NULL && make_schema(tree, schema) < 0) Py_CLEAR(capsule);
    return capsule;
}

/* Whether this interpreter lends. A release takes the lock of the main one: in a subinterpreter it would wait for its own
 * thread, or do without the lock of the buffers. */
static int lends(void) {
    if (PyInterpreterState_GetID(PyInterpreterState_Get()) == 0) return 1;
    PyErr_SetString(PyExc_RuntimeError, "a subinterpreter lends no Arrow columns");
    return 0;
}

PyObject *arrow_export(PyObject *self, PyObject *tree) {
    void *array;
    PyObject *one = lends() ? arrow_export_schema(self, tree) : NULL, *other;
    if (one == NULL) return NULL;
    other = capsule_of(sizeof(struct ArrowArray), "arrow_array", free_array, &array);
    if (other != NULL && make_array(tree, array) < 0) Py_CLEAR(other);
    if (other == NULL) {
        Py_DECREF(one);
        return NULL;
    }
    return Py_BuildValue("NN", one, other);
}

/* What a stream holds: the description of its type, what gives those of its arrays, and the words of its last error. */
typedef struct {
    PyObject *type, *arrays;
    char words[256];
} StreamPart;

/* The number of the error that is raised, whose words are kept. */
static int kept(StreamPart *part) {
    PyObject *kind, *value, *trace, *said;
    const char *words = NULL;
    int memory = PyErr_ExceptionMatches(PyExc_MemoryError);
    PyErr_Fetch(&kind, &value, &trace);
    said = value == NULL ? NULL : PyObject_Str(value);
    if (said != NULL) words = PyUnicode_AsUTF8AndSize(said, NULL);
    PyErr_Clear();
    PyOS_snprintf(part->words, sizeof part->words, "%s",
                  words != NULL && *words ? words
                  : memory                ? "out of memory"
                                          : "an error");
    Py_XDECREF(said);
    Py_XDECREF(kind);
    Py_XDECREF(value);
    Py_XDECREF(trace);
    return memory ? ENOMEM : EINVAL;
}

static int ended(StreamPart *part) {
    PyOS_snprintf(part->words, sizeof part->words, "Python has ended");
    return EIO;
}

static int stream_schema(struct ArrowArrayStream *stream, struct ArrowSchema *out) {
    StreamPart *part = stream->private_data;
    PyGILState_STATE state;
    Aside raised;
    int error = 0;
    if (!Py_IsInitialized()) return ended(part);
    state = PyGILState_Ensure();
    raised = set_aside();
    if (make_schema(part->type, out) < 0) error = kept(part);
    raise_again(raised);
    PyGILState_Release(state);
    return error;
}

static int stream_next(struct ArrowArrayStream *stream, struct ArrowArray *out) {
    StreamPart *part = stream->private_data;
    PyGILState_STATE state;
    PyObject *tree;
    Aside raised;
    int error = 0;
    if (!Py_IsInitialized()) return ended(part);
    state = PyGILState_Ensure();
    raised = set_aside();
    out->release = NULL;
    tree = PyIter_Next(part->arrays);
    if (tree == NULL ? PyErr_Occurred() != NULL : make_array(tree, out) < 0) error = kept(part);
    Py_XDECREF(tree);
    raise_again(raised);
    PyGILState_Release(state);
    return error;
}

static const char *stream_error(struct ArrowArrayStream *stream) {
    StreamPart *part = stream->private_data;
    return part->words[0] ? part->words : NULL;
}

static void release_stream(struct ArrowArrayStream *stream) {
    StreamPart *part = stream->private_data;
    PyGILState_STATE state;
    Aside raised;
    stream->release = NULL;
    if (!Py_IsInitialized()) return;
    state = PyGILState_Ensure();
    raised = set_aside();
    Py_DECREF(part->type);
    Py_DECREF(part->arrays);
    raise_again(raised);
    PyGILState_Release(state);
    free(part);
}

PyObject *arrow_export_stream(PyObject *self, PyObject *args) {
    PyObject *type, *arrays, *capsule;
    StreamPart *part;
    void *stream;
    (void)self;
    if (!PyArg_ParseTuple(args, "OO", &type, &arrays)) return NULL;
    if (!PyIter_Check(arrays)) return PyErr_SetString(PyExc_TypeError, "the arrays of a stream are an iterator"), NULL;
    if (!lends()) return NULL;
    if ((capsule = capsule_of(sizeof(struct ArrowArrayStream), "arrow_array_stream", free_stream, &stream)) == NULL)
        return NULL;
    if ((part = calloc(1, sizeof *part)) == NULL) {
        Py_DECREF(capsule);
        return PyErr_NoMemory();
    }
    Py_INCREF(type);
    Py_INCREF(arrays);
    part->type = type, part->arrays = arrays;
    *(struct ArrowArrayStream *)stream =
        (struct ArrowArrayStream){stream_schema, stream_next, stream_error, release_stream, part};
    return capsule;
}
